//! The tables on which calls are measured, and how each grows.

use reference::Offer;

/// A call of the planner.
#[derive(Clone, Copy, Debug, PartialEq, Eq)]
pub enum Call {
    /// A table of so many time units.
    Open,
    /// The setting's offer.
    Offer,
    /// The first held stream leaves.
    Withdraw,
    /// The offered stream's entry.
    Enquire,
    /// The coming interval.
    Beacon,
    /// The middle half of the coming interval's plan.
    Window,
}

impl Call {
    /// All of them, in the order of the rules.
    pub const ALL: [Call; 6] =
        [Call::Open, Call::Offer, Call::Withdraw, Call::Enquire, Call::Beacon, Call::Window];

    /// Its name in tables.
    pub fn name(self) -> &'static str {
        ["open", "offer", "withdraw", "enquire", "beacon", "window"][self as usize]
    }

    /// Whether the published procedure has a part for it.
    pub fn is_published(self) -> bool {
        matches!(self, Call::Offer | Call::Withdraw | Call::Beacon)
    }
}

/// A table and an offer to it. The offer is measured on the held requests, every other call once it is accepted.
#[derive(Clone, Debug)]
pub struct Setting {
    /// The sort of table.
    pub group: &'static str,
    /// The number that grows within the group.
    pub size: u32,
    /// Time units of an interval.
    pub units: u32,
    /// Slots of its header; the published procedure has none.
    pub header: u32,
    /// Held requests; all are accepted.
    pub held: Vec<Offer>,
    /// The last one, accepted too.
    pub offered: Offer,
    /// The calls to measure.
    pub calls: &'static [Call],
    /// Whose turn it is beside ours.
    pub peers: Peers,
}

/// The planners measured beside ours. Callgrind is slow, so some stay out where they would only repeat what smaller sizes show.
#[derive(Clone, Copy, Debug, PartialEq, Eq)]
pub enum Peers {
    /// The second implementation and the published procedure.
    Both,
    /// The second implementation: the published one's slot arrays would be large.
    Second,
    /// None.
    Nobody,
}

const MOVES: &[Call] = &[Call::Offer, Call::Beacon];
const OFFERS: &[Call] = &[Call::Offer];
const BEACONS: &[Call] = &[Call::Beacon];

fn fraction(stream: u32, m: u32, min: u32, life: u32) -> Offer {
    Offer { stream, kind: 1, period: m, min, max: 2 * min, life }
}

fn whole(stream: u32, period: u32, min: u32, life: u32) -> Offer {
    Offer { stream, kind: 2, period, min, max: 2 * min, life }
}

fn transfer(stream: u32, deadline: u32, min: u32) -> Offer {
    Offer { stream, kind: 3, period: deadline, min, max: 0, life: deadline }
}

/// Request `i` of a mix of all kinds, of which 32 fit into one time unit: half kind 1, a quarter of each other.
fn mixed(i: u32) -> Offer {
    match i % 4 {
        0 => fraction(i + 1, [2, 4, 8, 16][i as usize / 4 % 4], 2, 4),
        1 => whole(i + 1, 2, 40, 4),
        2 => fraction(i + 1, [16, 8, 4, 2][i as usize / 4 % 4], 2, 4),
        _ => transfer(i + 1, 4, 60),
    }
}

/// So many requests of the mix, a transfer offered last. Streams come first, which makes the published procedure quick to set up.
fn mix(group: &'static str, size: u32, units: u32, requests: u32, calls: &'static [Call]) -> Setting {
    let mut held: Vec<Offer> = (0..requests - 1).map(mixed).collect();
    held.sort_by_key(|offer| offer.kind);
    let offered = transfer(99, 4, 60);
    Setting { group, size, units, header: 0, held, offered, calls, peers: Peers::Both }
}

/// The requests of case 1 of document 01, a table of 12 and a full one, with every call.
fn calls() -> Vec<Setting> {
    let case1 = vec![fraction(5, 2, 100, 4), whole(7, 2, 600, 4)];
    vec![
        Setting { held: case1, offered: transfer(9, 1, 200), ..mix("calls", 3, 1, 3, &Call::ALL) },
        mix("calls", 12, 15, 12, &Call::ALL),
        mix("calls", 32, 15, 32, &Call::ALL),
    ]
}

/// The same 32 requests at longer and longer intervals.
fn units() -> Vec<Setting> {
    [1, 4, 16, 64, 256, 1_000].map(|units| mix("units", units, units, 32, MOVES)).into()
}

/// More and more requests at 15 time units.
fn requests() -> Vec<Setting> {
    [1, 2, 4, 8, 16, 24, 32].map(|size| mix("requests", size, 15, size, MOVES)).into()
}

/// 32 fraction streams at 15 time units, in more and more parts. The size counts their jobs.
fn jobs() -> Vec<Setting> {
    [2, 4, 8, 16].map(|m| parted("jobs", 32 * m, m, BEACONS)).into()
}

fn parted(group: &'static str, size: u32, m: u32, calls: &'static [Call]) -> Setting {
    let held = (1..=31).map(|i| fraction(i, m, 4, 4)).collect();
    Setting { held, offered: fraction(99, m, 4, 4), ..mix(group, size, 15, 32, calls) }
}

/// The dearest of these tables, with 960 slots to a period, behind longer and longer headers. The size is the header. In each period the
/// streams ask for 128 slots, and would have 256 with their extras: so these pass the header test but for the last header, where step C is
/// done over again.
fn headers() -> Vec<Setting> {
    let setting = |header| Setting { header, peers: Peers::Second, ..parted("headers", header, 16, MOVES) };
    [0, 1, 100, 704, 705].map(setting).into()
}

/// 32 fraction streams behind a header, in more and more different numbers of parts: the size counts these, and 13 are the most that divide
/// an interval.
fn parts() -> Vec<Setting> {
    const PARTS: [u32; 13] = [16, 15, 14, 12, 10, 9, 8, 7, 6, 5, 4, 3, 2];
    let setting = |different: usize| {
        let stream = |i: usize| fraction(i as u32 + 1, PARTS[i % different], 4, 4);
        let held = (0..31).map(stream).collect();
        let peers = Peers::Second;
        Setting {
            header: 100,
            held,
            offered: stream(31),
            peers,
            ..mix("parts", different as u32, 945, 1, OFFERS)
        }
    };
    [1, 2, 4, 8, 13].map(setting).into()
}

/// The longest life for which the published procedure is run: its arrays have a slot for each slot of these intervals.
const LONGEST_ARRAYS: u32 = 256;

/// Lives grow: 15 fraction streams and 16 transfers, nothing of which ends before the last interval, and a transfer of the same life.
fn lives() -> Vec<Setting> {
    let held = |life| {
        (1..=31).map(move |i| if i < 16 { fraction(i, 2, 2, life) } else { transfer(i, life, 8 * life) })
    };
    let setting = |life| Setting {
        held: held(life).collect(),
        offered: transfer(99, life, 8 * life),
        peers: if life <= LONGEST_ARRAYS { Peers::Both } else { Peers::Second },
        ..mix("lives", life, 1, 1, OFFERS)
    };
    [1, 4, 16, 64, 256, 1_024, 4_096, 16_384, 65_535].map(setting).into()
}

/// A table that the offer fills, with 29 requests of 20 slots an interval. The first two streams keep an even share from being enough:
/// of their 301 slots in three intervals it would take 101 in each, which makes 1,025 of 1,024 slots. So looking ahead has to go on to the
/// end, and the offered stream's period ends in each interval.
fn filled(group: &'static str, size: u32, life: u32, others: impl Fn(u32) -> Offer) -> Setting {
    let uneven = [1, 2].map(|stream| Offer { max: 301, ..whole(stream, 3, 301, life) });
    let held = uneven.into_iter().chain((3..=31).map(others)).collect();
    let offered = Offer { max: 243, ..whole(99, 1, 243, life) };
    Setting { held, offered, peers: Peers::Second, ..mix(group, size, 1, 1, OFFERS) }
}

/// Lives grow on the dearest of the candidates below. Its periods, 1 to 6, divide every life.
fn full() -> Vec<Setting> {
    let setting = |life| Setting {
        peers: if life < 65_520 { Peers::Second } else { Peers::Nobody },
        ..filled("full", life, life, |i| whole(i, i % 6 + 1, 20 * (i % 6 + 1), life))
    };
    [60, 240, 780, 3_840, 13_080, 65_520].map(setting).into()
}

/// Candidates for the worst input of looking ahead, all of life 240.
fn worst() -> Vec<Setting> {
    const LIFE: u32 = 240;
    vec![
        filled("worst", 1, LIFE, |i| fraction(i, 2, 10, LIFE)),
        filled("worst", 2, LIFE, |i| transfer(i, LIFE, 20 * LIFE)),
        filled("worst", 3, LIFE, |i| whole(i, 120, 20 * 120, LIFE)),
        filled("worst", 4, LIFE, |i| whole(i, i % 6 + 1, 20 * (i % 6 + 1), LIFE)),
        filled("worst", 5, LIFE, |i| whole(i, 2, 40, LIFE)),
        filled("worst", 6, LIFE, |i| whole(i, 1, 20, LIFE)),
    ]
}

/// The 29 that the candidates for the worst input hold, by their size.
pub const CANDIDATES: [&str; 6] = [
    "fraction streams",
    "transfers with one deadline",
    "whole streams of period 120",
    "whole streams of periods 1 to 6",
    "whole streams of period 2",
    "whole streams of period 1",
];

/// All settings of a group.
pub fn of(group: &str) -> Vec<Setting> {
    match group {
        "calls" => calls(),
        "units" => units(),
        "requests" => requests(),
        "jobs" => jobs(),
        "headers" => headers(),
        "parts" => parts(),
        "lives" => lives(),
        "full" => full(),
        "worst" => worst(),
        _ => Vec::new(),
    }
}

#[cfg(test)]
mod tests {
    use super::*;
    use crate::eaciar::Eaciar;
    use crate::planner::{Planner, Second};

    fn accepts<P: Planner>(setting: &Setting) {
        let mut planner = P::open(setting.units, setting.header);
        for offer in setting.held.iter().chain([&setting.offered]) {
            assert_eq!(planner.offer(offer), 0, "{} {} {offer:?}", setting.group, setting.size);
        }
    }

    /// The figures are about calls that succeed.
    #[test]
    fn all_is_accepted() {
        for group in ["calls", "units", "requests", "jobs", "headers", "parts", "lives", "full", "worst"] {
            for setting in of(group) {
                assert!(setting.held.len() < 32);
                if setting.peers != Peers::Nobody {
                    accepts::<Second>(&setting);
                }
                if setting.peers == Peers::Both && setting.size <= 64 {
                    accepts::<Eaciar>(&setting);
                }
            }
        }
    }
}
