//! Worked examples of the published procedure.

use super::*;

fn offer([stream, kind, period, min, max, life]: [u32; 6]) -> Offer {
    Offer { stream, kind, period, min, max, life }
}

/// The streams of case 1 of document 01, held at one time unit.
fn two_streams() -> Eaciar {
    let mut planner = Eaciar::open(1, 0);
    assert_eq!(planner.offer(&offer([5, 1, 2, 100, 300, 4])), 0);
    assert_eq!(planner.offer(&offer([7, 2, 2, 600, 1_000, 4])), 0);
    planner
}

fn runs(planner: &mut Eaciar) -> Vec<[u32; 3]> {
    let mut plan = vec![0; 4_096];
    let count = planner.beacon(&mut plan);
    plan[..4 * count].chunks(4).map(|w| [w[0], w[2], w[3]]).collect()
}

/// U_min = 500/1,024, so the surplus is 524/1,024 of 600/1,024 wanted: 174 of 200 slots more, and 349 of 400.
#[test]
fn surplus_without_transfers() {
    let mut planner = two_streams();
    assert_eq!(planner.rows[0].operational, 274);
    assert_eq!(planner.rows[1].operational, 949);
    assert_eq!(runs(&mut planner), [[5, 0, 274], [7, 274, 238], [5, 512, 274], [7, 786, 238]]);
    assert_eq!(runs(&mut planner), [[5, 0, 274], [7, 274, 238], [5, 512, 274], [7, 786, 235]]);
}

/// Streams go first, so only 224 slots are left before the first deadline, and case 1's transfer of 300 is refused.
#[test]
fn streams_before_transfers() {
    let mut planner = two_streams();
    assert_eq!(planner.offer(&offer([9, 3, 1, 300, 0, 1])), 17);
    assert_eq!(planner.offer(&offer([9, 3, 1, 225, 0, 1])), 17);
    assert_eq!(planner.offer(&offer([9, 3, 1, 224, 0, 1])), 0);
    let expected = [[5, 0, 100], [7, 100, 412], [5, 512, 100], [7, 612, 188], [9, 800, 224]];
    assert_eq!(runs(&mut planner), expected);
}

/// 100 slots are left of 800 wanted: 25 for each job of stream 5, of which the first finds no slot, and 50 for stream 7.
#[test]
fn surplus_beside_a_transfer() {
    let mut planner = two_streams();
    assert_eq!(planner.offer(&offer([9, 3, 1, 124, 0, 1])), 0);
    let expected =
        [[5, 0, 100], [7, 100, 412], [5, 512, 100], [7, 612, 188], [9, 800, 124], [5, 924, 25], [7, 949, 50]];
    assert_eq!(runs(&mut planner), expected);
    assert_eq!(planner.rows.len(), 2);
    assert_eq!(planner.rows[1].remain, -50);
}

/// Case 5: the sum of utilizations is 1/2 + 1/1,024, but the interval has no slot to spare.
#[test]
fn departures_mislead_the_sum() {
    let mut planner = Eaciar::open(1, 0);
    assert_eq!(planner.offer(&offer([1, 2, 2, 1_024, 1_024, 2])), 0);
    assert_eq!(planner.offer(&offer([2, 2, 2, 1_024, 1_024, 2])), 0);
    assert_eq!(runs(&mut planner), [[1, 0, 1_024]]);
    assert_eq!(planner.withdraw(1), 0);
    assert_eq!(planner.offer(&offer([3, 2, 1, 1, 1, 1])), 0);
    assert_eq!(runs(&mut planner), [[2, 0, 1_024]]);
}

/// A whole stream may ask more than an interval has: the rest waits, and an exact fit is no miss.
#[test]
fn more_than_an_interval() {
    let mut planner = Eaciar::open(1, 0);
    assert_eq!(planner.offer(&offer([1, 2, 2, 1_500, 1_500, 2])), 0);
    assert_eq!(planner.offer(&offer([2, 3, 2, 549, 0, 2])), 17);
    assert_eq!(planner.offer(&offer([2, 3, 2, 548, 0, 2])), 0);
    assert_eq!(runs(&mut planner), [[1, 0, 1_024]]);
    assert_eq!(runs(&mut planner), [[1, 0, 476], [2, 476, 548]]);
    assert!(planner.rows.is_empty());
}
