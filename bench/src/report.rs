//! The tables and plots that docs/PERFORMANCE.md shows.

use std::io;

use crate::counting::{self, Count, find};
use crate::days::{self, Counts};
use crate::plot::{self, Line, Text};
use crate::settings::{self, CANDIDATES, Call};
use crate::table::{self, number, ratio};
use crate::timing;

const PLANNERS: [&str; 3] = ["ours", "second", "EACIAR"];
const LOOK_AHEAD: [&str; 2] = ["ours", "second"];
const NONE: &str = "-";

fn shown(count: Option<u64>) -> String {
    count.map_or(NONE.to_string(), number)
}

/// What ours takes for each instruction of another.
fn part(ours: Option<u64>, other: Option<u64>) -> String {
    ours.zip(other).map_or(NONE.to_string(), |(ours, other)| ratio(ours as f64 / other.max(1) as f64))
}

/// Counts of all planners, then ours to each of the others.
fn counted(counts: &[Count], size: u32, call: Call) -> Vec<String> {
    let [ours, second, published] = PLANNERS.map(|planner| find(counts, size, call, planner));
    vec![shown(ours), shown(second), shown(published), part(ours, second), part(ours, published)]
}

/// Every call on three tables, in instructions and as ratios of time.
pub fn calls() -> io::Result<String> {
    let counts = counting::count("calls")?;
    let mut rows = Vec::new();
    for setting in settings::of("calls") {
        for call in Call::ALL {
            let times = timing::ratios(&setting, call);
            let time = |name| {
                times.iter().find(|time| time.0 == name).map_or(NONE.to_string(), |time| ratio(time.1))
            };
            let mut row = vec![format!("{}, {}", call.name(), setting.size)];
            row.extend(counted(&counts, setting.size, call));
            row.extend([time("second"), time("EACIAR")]);
            rows.push(row);
        }
    }
    let head = [
        "call, requests",
        "ours",
        "second",
        "EACIAR",
        "ours/second",
        "ours/EACIAR",
        "time: ours/second",
        "time: ours/EACIAR",
    ];
    Ok(table::print(&head, &rows))
}

/// An offer to each candidate for the worst input, in instructions for each interval looked at.
pub fn worst() -> io::Result<String> {
    let counts = counting::count("worst")?;
    let rows: Vec<Vec<String>> = settings::of("worst")
        .iter()
        .map(|setting| {
            let each = |planner| {
                find(&counts, setting.size, Call::Offer, planner).map(|n| n / u64::from(setting.offered.life))
            };
            let (ours, second) = (each("ours"), each("second"));
            let name = CANDIDATES[setting.size as usize - 1].to_string();
            vec![name, shown(ours), shown(second), part(ours, second)]
        })
        .collect();
    Ok(table::print(&["29 held", "ours", "second", "ours/second"], &rows))
}

/// An offer and a beacon behind each header, and what the header adds to them.
pub fn headers() -> io::Result<String> {
    let counts = counting::count("headers")?;
    let mut rows = Vec::new();
    for call in [Call::Offer, Call::Beacon] {
        for setting in settings::of("headers") {
            let [ours, second] = LOOK_AHEAD.map(|planner| find(&counts, setting.size, call, planner));
            let none = find(&counts, 0, call, "ours");
            let name = format!("{}, {}", call.name(), setting.size);
            rows.push(vec![name, shown(ours), shown(second), part(ours, second), part(ours, none)]);
        }
    }
    let head = ["call, header", "ours", "second", "ours/second", "to ours without one"];
    Ok(format!("{}\n{}", table::print(&head, &rows), parts()?))
}

/// An offer behind a header, by the different numbers of parts.
fn parts() -> io::Result<String> {
    let counts = counting::count("parts")?;
    let row = |setting: &settings::Setting| {
        let [ours, second] = LOOK_AHEAD.map(|planner| find(&counts, setting.size, Call::Offer, planner));
        vec![setting.size.to_string(), shown(ours), shown(second), part(ours, second)]
    };
    let rows: Vec<Vec<String>> = settings::of("parts").iter().map(row).collect();
    Ok(table::print(&["different numbers of parts", "ours", "second", "ours/second"], &rows))
}

/// What grows, and in which calls that is seen.
pub struct Growth {
    group: &'static str,
    across: &'static str,
    calls: &'static [Call],
}

/// The growths shown.
pub const GROWTHS: [Growth; 5] = [
    Growth {
        group: "units",
        across: "time units of an interval, 32 requests",
        calls: &[Call::Offer, Call::Beacon],
    },
    Growth { group: "requests", across: "requests, 15 time units", calls: &[Call::Offer, Call::Beacon] },
    Growth { group: "jobs", across: "jobs of 32 fraction streams, 15 time units", calls: &[Call::Beacon] },
    Growth { group: "lives", across: "life in intervals", calls: &[Call::Offer] },
    Growth { group: "full", across: "life in intervals, worst table", calls: &[Call::Offer] },
];

/// A table for each call, and its plot with the name of its file.
pub fn growth(growth: &Growth) -> io::Result<(String, Vec<(String, String)>)> {
    let counts = counting::count(growth.group)?;
    let sizes: Vec<u32> = settings::of(growth.group).iter().map(|setting| setting.size).collect();
    let (mut tables, mut plots) = (String::new(), Vec::new());
    for &call in growth.calls {
        let row = |&size: &u32| [vec![number(u64::from(size))], counted(&counts, size, call)].concat();
        let head = [growth.across, "ours", "second", "EACIAR", "ours/second", "ours/EACIAR"];
        let rows: Vec<Vec<String>> = sizes.iter().map(row).collect();
        tables += &format!("{}:\n\n{}\n", call.name(), table::print(&head, &rows));
        let title = format!("Instructions of one {}", call.name());
        let text = Text { title: &title, across: growth.across };
        plots.push((
            format!("growth-{}-{}.svg", growth.group, call.name()),
            plot::svg(&text, &lines(&counts, &sizes, call)),
        ));
    }
    Ok((tables, plots))
}

fn lines(counts: &[Count], sizes: &[u32], call: Call) -> Vec<Line> {
    let line = |name| {
        let point = |&size: &u32| find(counts, size, call, name).map(|n| (f64::from(size), n.max(1) as f64));
        Line { name, points: sizes.iter().filter_map(point).collect() }
    };
    PLANNERS.map(line).into_iter().filter(|line| !line.points.is_empty()).collect()
}

/// What each planner made of the same random days. It is an error if one that looks ahead made a mistake.
pub fn days(days: usize, seed: u64) -> io::Result<String> {
    let mut text = format!("seed {seed}, {} days of each sort\n", number(days as u64));
    let head = [
        "planner",
        "offers decided by time",
        "accepted",
        "refused, but servable",
        "accepted, but not servable",
        "periods completed",
        "short of their minimum",
        "days with one",
    ];
    for mix in days::MIXES {
        let all = days::compare(seed, days, mix);
        if let Some((name, counts)) =
            all.iter().find(|(name, counts)| LOOK_AHEAD.contains(name) && !counts.is_faultless())
        {
            return Err(io::Error::other(format!("{}, seed {seed}: {name} {counts:?}", mix.name)));
        }
        let rows: Vec<Vec<String>> = all.iter().map(day_row).collect();
        text += &format!("\n{}:\n\n{}", mix.name, table::print(&head, &rows));
    }
    Ok(text)
}

fn day_row((name, counts): &(&str, Counts)) -> Vec<String> {
    let Counts { decided, accepted, refused_servable, accepted_unservable, completed, short, short_days } =
        *counts;
    let numbers = [decided, accepted, refused_servable, accepted_unservable, completed, short, short_days];
    [name.to_string()].into_iter().chain(numbers.map(number)).collect()
}
