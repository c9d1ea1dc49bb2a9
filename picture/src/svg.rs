//! The picture: a lane for each stream, one for idle time, an axis of slots, and a gauge of what each stream has had.
//!
//! Shades differ in lightness and every bar has an outline, so that a grey print says the same.

use std::fmt::Display;

use crate::gauge;
use crate::page::{Layout, MARGIN, Page, Px, STREAM_COLUMN, WIDTH, px};
use crate::plan::{Idle, Lane, Plan};
use crate::requests::Kind;
use crate::words;

const TOP: u64 = 80;
const LANE_HEIGHT: u64 = 20;
/// What a lane leaves above and below its bars, so that the ends of a period's ticks stick out.
const INSET: u64 = 3;
const BELOW_LANES: u64 = 120;

/// The fills by kind, from light to dark, and that of jobs whose kind is not known.
const FRACTION: &str = "#fff2cc";
const WHOLE: &str = "#b4d2ee";
const TRANSFER: &str = "#c8743c";
const UNKNOWN: &str = "#dddddd";
const IDLE: &str = "url(#hatch)";

/// The narrowest bar: a record of one slot is seen, whatever the scale.
const NARROWEST: Px = Px(60);
/// The room of a digit in a bar, and that at both sides of a number.
const DIGIT: u64 = 640;
const ASIDE: u64 = 400;

/// The plan as an SVG document.
pub fn drawn(plan: &Plan) -> String {
    let layout = Layout::of(plan);
    let bottom = TOP + (plan.lanes.len() as u64 + 1) * LANE_HEIGHT;
    let mut page = Page::default();
    open(&mut page, plan, bottom + BELOW_LANES);
    heading(&mut page, plan, &layout);
    grid(&mut page, &layout, bottom);
    let tops = (TOP..).step_by(LANE_HEIGHT as usize);
    for (lane, top) in plan.lanes.iter().zip(tops) {
        stream_lane(&mut page, &layout, lane, top);
    }
    idle_lane(&mut page, &layout, &plan.idle, bottom - LANE_HEIGHT);
    axis(&mut page, &layout, bottom);
    legend(&mut page, plan, bottom + 52);
    page.add(format_args!("</g>\n</svg>"));
    page.text
}

/// The document's start: its size, its text alternative, the hatch of idle time and a white ground.
fn open(page: &mut Page, plan: &Plan, height: u64) {
    page.add(format_args!("<?xml version=\"1.0\" encoding=\"UTF-8\"?>"));
    page.add(format_args!(
        "<svg xmlns=\"http://www.w3.org/2000/svg\" version=\"1.1\" width=\"{WIDTH}\" height=\"{height}\" viewBox=\"0 0 {WIDTH} {height}\">"
    ));
    page.add(format_args!("<title>{}</title>", words::title(plan)));
    page.add(format_args!("<desc>{}</desc>", words::description(plan)));
    page.add(format_args!(
        "<defs>\n<pattern id=\"hatch\" width=\"5\" height=\"5\" patternUnits=\"userSpaceOnUse\">\n\
         <rect width=\"5\" height=\"5\" fill=\"#ffffff\"/>\n\
         <path d=\"M-1,1 L1,-1 M0,5 L5,0 M4,6 L6,4\" stroke=\"#555555\" stroke-width=\"0.8\"/>\n</pattern>\n</defs>"
    ));
    page.add(format_args!("<rect width=\"{WIDTH}\" height=\"{height}\" fill=\"#ffffff\"/>"));
    page.add(format_args!("<g font-family=\"sans-serif\" font-size=\"10\" fill=\"#000000\">"));
}

/// The title, what there is in all, and the names of the columns.
fn heading(page: &mut Page, plan: &Plan, layout: &Layout) {
    page.add(format_args!(
        "<text x=\"{MARGIN}\" y=\"21\" font-size=\"14\" font-weight=\"bold\">{}</text>",
        words::title(plan)
    ));
    page.text(px(MARGIN), px(37), "start", words::summary(plan));
    page.text(px(STREAM_COLUMN), px(TOP - 5), "end", "stream");
    if plan.has_requests {
        page.text(px(layout.period), px(TOP - 5), "end", "period");
        gauge::heading(page, layout, TOP - 5);
    }
}

/// Pale lines from the axis up through all lanes.
fn grid(page: &mut Page, layout: &Layout, bottom: u64) {
    for tick in layout.ticks() {
        let x = layout.x(tick);
        page.line([x, px(TOP), x, px(bottom)], "stroke=\"#cccccc\" stroke-width=\"0.5\"");
    }
}

/// The axis with its ticks.
fn axis(page: &mut Page, layout: &Layout, bottom: u64) {
    let (left, right) = (layout.x(0), layout.x(layout.end));
    let black = "stroke=\"#000000\" stroke-width=\"1\"";
    page.line([left, px(bottom), right, px(bottom)], black);
    for tick in layout.ticks() {
        let x = layout.x(tick);
        page.line([x, px(bottom), x, px(bottom + 5)], black);
        page.text(x, px(bottom + 16), "middle", words::grouped(tick));
    }
    page.text(
        Px((left.0 + right.0) / 2),
        px(bottom + 31),
        "middle",
        "slot of the interval, 1 microsecond each",
    );
}

/// A lane's name and the line under it.
fn lane_name(page: &mut Page, name: impl Display, top: u64) {
    page.text(px(STREAM_COLUMN), px(top + 14), "end", name);
    let under = px(top + LANE_HEIGHT);
    page.line([px(MARGIN), under, px(WIDTH - MARGIN), under], "stroke=\"#cccccc\" stroke-width=\"0.5\"");
}

/// A stream's lane: its name, the ticks of its periods, its jobs, its gauge.
fn stream_lane(page: &mut Page, layout: &Layout, lane: &Lane, top: u64) {
    lane_name(page, lane.stream, top);
    if let Some(request) = &lane.request {
        page.text(px(layout.period), px(top + 14), "end", words::period(request));
        if let Kind::Fraction(parts) = request.kind {
            period_ticks(page, layout, parts, top);
        }
    }
    let fill = fill_of(lane.request.as_ref().map(|request| request.kind));
    for record in &lane.records {
        let what = format!("stream {}, job {}", record.stream, record.job);
        bar(page, layout, [record.start, record.end()], top, fill, &what);
    }
    job_numbers(page, layout, lane, top);
    gauge::lane(page, layout, lane, top, fill);
}

fn fill_of(kind: Option<Kind>) -> &'static str {
    match kind {
        Some(Kind::Fraction(_)) => FRACTION,
        Some(Kind::Whole(_)) => WHOLE,
        Some(Kind::Transfer) => TRANSFER,
        None => UNKNOWN,
    }
}

/// A tick at each bound of the interval's parts.
fn period_ticks(page: &mut Page, layout: &Layout, parts: u64, top: u64) {
    for part in 0..=parts {
        let x = layout.x(layout.end / parts * part);
        page.line([x, px(top), x, px(top + LANE_HEIGHT)], PERIOD_TICK);
    }
}

/// Dashed, since a narrow bar is as thin as a line.
const PERIOD_TICK: &str = "stroke=\"#000000\" stroke-width=\"1\" stroke-dasharray=\"2.5 2.5\"";

/// The bar of a run of slots. Its own title says in words what it is.
fn bar(page: &mut Page, layout: &Layout, [start, end]: [u64; 2], top: u64, fill: &str, what: &str) {
    let x = layout.x(start);
    let width = Px(layout.x(end).0 - x.0).max(NARROWEST);
    let (y, height, last) = (top + INSET, LANE_HEIGHT - 2 * INSET, end - 1);
    page.add(format_args!(
        "<rect x=\"{x}\" y=\"{y}\" width=\"{width}\" height=\"{height}\" fill=\"{fill}\" stroke=\"#000000\" stroke-width=\"0.8\">\
         <title>{what}, slots {start} to {last}</title></rect>"
    ));
}

/// The number of each job in its bar or, where that is too narrow, beside it; where neither has room, none.
fn job_numbers(page: &mut Page, layout: &Layout, lane: &Lane, top: u64) {
    for (i, record) in lane.records.iter().enumerate() {
        let (start, end) = (layout.x(record.start), layout.x(record.end()).0);
        let side = Px(end.max(start.0 + NARROWEST.0) + ASIDE / 2);
        let digits = record.job.to_string().len() as u64;
        let baseline = Px(top * 100 + 1_370);
        if end - start.0 >= digits * DIGIT + ASIDE {
            page.text(Px((start.0 + end) / 2), baseline, "middle", record.job);
        } else if side.0 + digits * DIGIT + ASIDE / 2 <= layout.x(free_until(layout, lane, i)).0 {
            page.text(side, baseline, "start", record.job);
        }
    }
}

/// Where the free room after a record ends: at the lane's next record, or at a line across the lane.
fn free_until(layout: &Layout, lane: &Lane, i: usize) -> u64 {
    let end = lane.records[i].end();
    let record = lane.records.get(i + 1).map_or(layout.end, |next| next.start);
    let tick = layout.ticks().into_iter().find(|&tick| tick >= end).unwrap_or(layout.end);
    let bound = match lane.request.as_ref().map(|request| request.kind) {
        Some(Kind::Fraction(parts)) => end.next_multiple_of(layout.end / parts),
        _ => layout.end,
    };
    record.min(tick).min(bound)
}

/// The lane of slots that no record has.
fn idle_lane(page: &mut Page, layout: &Layout, idle: &[Idle], top: u64) {
    lane_name(page, "idle", top);
    for run in idle {
        bar(page, layout, [run.start, run.end], top, IDLE, "idle");
    }
}

/// What fills and ticks mean.
fn legend(page: &mut Page, plan: &Plan, top: u64) {
    let mut x = MARGIN;
    let fills: &[(&str, &str)] = match plan.has_requests {
        true => &[
            (FRACTION, "kind 1, fraction stream"),
            (WHOLE, "kind 2, whole stream"),
            (TRANSFER, "kind 3, transfer"),
        ],
        false => &[(UNKNOWN, "job")],
    };
    for (fill, meaning) in fills.iter().chain(&[(IDLE, "idle")]) {
        page.add(format_args!(
            "<rect x=\"{x}\" y=\"{top}\" width=\"16\" height=\"10\" fill=\"{fill}\" stroke=\"#000000\" stroke-width=\"0.8\"/>"
        ));
        x = legend_text(page, x, top, meaning);
    }
    if plan.has_requests {
        let middle = px(x + 8);
        page.line([middle, px(top - 2), middle, px(top + 12)], PERIOD_TICK);
        legend_text(page, x, top, "bound of a kind 1 period");
    }
    gauge::legend(page, plan, top + 20, UNKNOWN);
    let notes_top = if plan.has_requests { top + 46 } else { top + 27 };
    for (note, i) in words::notes(plan).iter().zip(0..) {
        page.text(px(MARGIN), px(notes_top + i * 14), "start", note);
    }
}

/// A meaning beside its swatch; gives back where the next swatch stands.
fn legend_text(page: &mut Page, x: u64, top: u64, meaning: &str) -> u64 {
    page.text(px(x + 21), px(top + 9), "start", meaning);
    x + 21 + meaning.len() as u64 * 5 + 16
}

#[cfg(test)]
mod tests {
    use super::*;
    use crate::answers::Record;
    use crate::plan::Known;
    use crate::requests::{Request, Table};

    /// Fields of a request of each kind.
    const HALVES: [u64; 5] = [1, 2, 100, 300, 4];
    const QUARTERS: [u64; 5] = [1, 4, 100, 200, 4];
    const WHOLE_STREAM: [u64; 5] = [2, 4, 100, 300, 4];
    const LOAN: [u64; 5] = [3, 4, 100, 0, 4];

    /// The picture of records of stream, job, start and length in 1,024 slots. Where a request is given, stream 5 holds it.
    fn picture(numbers: &[[u64; 4]], held: Option<[u64; 5]>) -> String {
        let record = |&[stream, job, start, length]: &[u64; 4]| Record { row: 2, stream, job, start, length };
        let records: Vec<Record> = numbers.iter().map(record).collect();
        let table = |fields| {
            let request = Request::admitted(fields, 1_024).unwrap();
            Known::Table(Table { interval: 1_024, held: [(5, request)].into() })
        };
        drawn(&Plan::new(1, &records, held.map_or(Known::Length(1_024), table)).unwrap())
    }

    fn count(text: &str, part: &str) -> usize {
        text.matches(part).count()
    }

    #[test]
    fn bars_say_their_slots() {
        let text = picture(&[[5, 3, 0, 100], [5, 4, 100, 1]], None);
        assert_eq!(count(&text, "<title>stream 5, job 3, slots 0 to 99</title>"), 1);
        assert_eq!(count(&text, "<title>stream 5, job 4, slots 100 to 100</title>"), 1);
        assert_eq!(count(&text, "<title>idle, slots 101 to 1023</title>"), 1);
    }

    #[test]
    fn a_number_stands_in_its_bar_or_beside_it() {
        assert_eq!(count(&picture(&[[5, 3, 0, 100]], None), "text-anchor=\"middle\">3<"), 1);
        assert_eq!(count(&picture(&[[5, 3, 0, 1]], None), "text-anchor=\"start\">3<"), 1);
        assert_eq!(count(&picture(&[[5, 3, 0, 1], [5, 4, 1, 100]], None), ">3<"), 0);
        // The last slot before a period's bound: beside it is the next period.
        assert_eq!(count(&picture(&[[5, 1, 511, 1]], Some(HALVES)), ">1<"), 0);
        assert_eq!(count(&picture(&[[5, 1, 512, 1]], Some(HALVES)), ">1<"), 1);
    }

    #[test]
    fn a_number_beside_its_bar_crosses_no_line() {
        let number =
            |start| count(&picture(&[[5, 0, start, 1]], Some(WHOLE_STREAM)), "text-anchor=\"start\">0<");
        assert_eq!([number(100), number(127), number(128), number(1_023)], [1, 0, 1, 0]);
    }

    #[test]
    fn only_a_fraction_stream_has_period_ticks() {
        let ticks = |fields| count(&picture(&[[5, 0, 0, 1]], Some(fields)), "stroke-dasharray");
        // One of them is the legend's.
        assert_eq!(ticks(QUARTERS), 5 + 1);
        assert_eq!(ticks(WHOLE_STREAM), 1);
        assert_eq!(ticks(LOAN), 1);
        assert_eq!(count(&picture(&[[5, 0, 0, 1]], None), "stroke-dasharray"), 0);
    }

    #[test]
    fn each_kind_has_its_fill() {
        for (fields, fill) in [(HALVES, FRACTION), (WHOLE_STREAM, WHOLE), (LOAN, TRANSFER)] {
            // The bar, the gauge and the legend.
            assert_eq!(count(&picture(&[[5, 0, 0, 1]], Some(fields)), fill), 3);
        }
        assert_eq!(count(&picture(&[[5, 0, 0, 1]], None), UNKNOWN), 2);
    }

    #[test]
    fn a_lane_says_what_its_period_has_had() {
        let texts = |text: String| -> Vec<String> {
            let lane = text.split("<g><title>Stream 5").nth(1).unwrap().split("</g>").nth(1).unwrap();
            lane.split("\"end\">")
                .skip(1)
                .take(3)
                .map(|part| part.split('<').next().unwrap().to_string())
                .collect()
        };
        let plan = [[5, 0, 0, 80], [5, 0, 90, 30]];
        assert_eq!(texts(picture(&plan, Some(WHOLE_STREAM))), ["110", "100", "300"]);
        assert_eq!(texts(picture(&plan[..1], Some(LOAN))), ["80", "100", "100"]);
        assert_eq!(
            texts(picture(&[plan[0], plan[1], [5, 1, 512, 110]], Some(HALVES))),
            ["110", "100", "300"]
        );
        assert_eq!(count(&picture(&plan, None), "<g><title>"), 0);
    }

    #[test]
    fn the_page_grows_by_a_lane_for_each_stream() {
        let height = |streams: u64| {
            let records: Vec<[u64; 4]> = (1..=streams).map(|stream| [stream, 0, stream, 1]).collect();
            picture(&records, None)
                .contains(&format!("height=\"{}\"", TOP + (streams + 1) * LANE_HEIGHT + BELOW_LANES))
        };
        assert!(height(1) && height(2) && height(32));
    }
}
