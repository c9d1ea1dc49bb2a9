//! The beacon header: cases worked by hand, on the library and on the program, and what holds for every
//! table.

mod common;

use common::{Style, beacon, header_below, random_offer};
use reference::lists;
use reference::random::Random;
use reference::request::Request;
use reference::rows::run_bytes;
use reference::steps::{Division, capacity, passes_header_test, passes_job_by_job};
use reference::{Entry, Offer, Record, Refusal, Slots, Table, answer};

fn offer(stream: u32, kind: u32, period: u32, min: u32, max: u32, life: u32) -> Offer {
    Offer { stream, kind, period, min, max, life }
}

/// Runs a beacon and tells the stream, job, start and length of each record.
fn plan(table: &mut Table) -> String {
    let told = |r: &Record| format!("{}/{} at {} for {}", r.stream, r.job, r.start.0, r.length.0);
    beacon(table).iter().map(told).collect::<Vec<String>>().join(", ")
}

/// An opening and offers that are all accepted.
fn table_with(time_units: u32, header: u32, offers: &[Offer]) -> Table {
    let mut table = Table::open(time_units, header).unwrap();
    for offer in offers {
        assert_eq!(table.offer(offer), Ok(()), "{offer:?}");
    }
    table
}

fn extras(division: &Division) -> Vec<u64> {
    division.shares.iter().map(|share| share.extra.0).collect()
}

#[test]
fn openings_in_order_of_refusal() {
    for (time_units, header, number) in [
        (0, 0, 1),
        (0, 1, 1),
        (0, 1_024, 1),
        (0, u32::MAX, 1),
        (1_001, 0, 1),
        (1_001, 1_025_024, 1),
        (u32::MAX, u32::MAX, 1),
        (1, 0, 0),
        (1, 1, 0),
        (1, 1_023, 0),
        (1, 1_024, 61),
        (1, 1_025, 61),
        (1, u32::MAX, 61),
        (2, 1_024, 0),
        (2, 2_047, 0),
        (2, 2_048, 61),
        (1_000, 1_023_999, 0),
        (1_000, 1_024_000, 61),
        (1_000, u32::MAX, 61),
    ] {
        let opened = Table::open(time_units, header);
        assert_eq!(answer(&opened), number, "{time_units} {header}");
        if let Ok(table) = opened {
            assert_eq!(table.interval(), Slots(1_024 * u64::from(time_units)));
            assert_eq!(table.header(), Slots(u64::from(header)));
        }
    }
    assert_eq!(Table::open(1, 1_024), Err(Refusal::Header));
}

/// The first worked case with h = 50. E = 1,024 - 50 - 2 * 100 = 774.
#[test]
fn plans_behind_a_header() {
    let offers = [offer(5, 1, 2, 100, 300, 4), offer(7, 2, 2, 600, 1_000, 4), offer(9, 3, 1, 300, 0, 1)];
    let mut table = table_with(1, 50, &offers);
    // Stream 9 takes 300 and stream 7 the other 474, so nothing is left to share. The first job of stream 5,
    // released at 0, and both pieces wait for slot 50.
    let first = table.division();
    assert_eq!((first.capacity, first.rest), (Slots(774), Slots(0)));
    let expected = "5/0 at 50 for 100, 9/0 at 150 for 300, 7/0 at 450 for 62, 5/1 at 512 for 100, \
        7/0 at 612 for 412";
    assert_eq!(plan(&mut table), expected);
    // Stream 7 is owed 600 - 474 = 126, so L = 774 - 126 = 648. d is 200 for stream 5 and
    // 1,000 - 474 - 126 = 400 for stream 7; W = 2 * 200 + 400 = 800. Extras: 200 * 648 / 800 = 162 and
    // 400 * 648 / 800 = 324. The test: 262 <= 512 - 50 and 524 <= 1,024 - 50.
    let second = table.division();
    assert_eq!((second.rest, second.wanted, second.fractions_left_out), (Slots(648), Slots(800), false));
    assert_eq!(extras(&second), [162, 324]);
    let expected = "5/0 at 50 for 262, 7/0 at 312 for 200, 5/1 at 512 for 262, 7/0 at 774 for 250";
    assert_eq!(plan(&mut table), expected);
}

/// h = 500 leaves 12 slots before the first half ends, and 524 altogether.
#[test]
fn the_test_alone_refuses() {
    let mut table = Table::open(1, 500).unwrap();
    let before = table.clone();
    // E = 524 - 26 = 498 would do, and nobody has a deadline; but 13 > 512 - 500.
    assert_eq!(table.offer(&offer(1, 1, 2, 13, 13, 1)), Err(Refusal::NoTime));
    assert_eq!(table, before);
    // 12 = 512 - 500 just fits.
    assert_eq!(table.offer(&offer(1, 1, 2, 12, 12, 1)), Ok(()));
    // Two streams: 12 + 1 > 12.
    assert_eq!(table.offer(&offer(2, 1, 2, 1, 1, 1)), Err(Refusal::NoTime));
    // The test is about kind 1 only. E = 524 - 24 = 500.
    assert_eq!(table.offer(&offer(3, 2, 1, 501, 501, 1)), Err(Refusal::NoTime));
    assert_eq!(table.offer(&offer(3, 2, 1, 500, 500, 1)), Ok(()));
    assert_eq!(table.offer(&offer(4, 3, 1, 1, 0, 1)), Err(Refusal::NoTime));
    let expected = "1/0 at 500 for 12, 1/1 at 512 for 12, 3/0 at 524 for 500";
    assert_eq!(plan(&mut table), expected);
    assert_eq!(plan(&mut table), "");
}

/// h = 100 with ends at 128 and 256: 28 and 156 slots.
#[test]
fn the_test_looks_at_every_end_and_every_stream() {
    // At 128: 20 <= 28. At 256: 100 + 2 * 20 = 140 <= 156. At 384: 100 + 3 * 20 = 160 <= 284, and so on.
    let mut table = table_with(1, 100, &[offer(1, 1, 4, 100, 100, 1), offer(2, 1, 8, 20, 20, 1)]);
    // An end at 64 lies within the header.
    assert_eq!(answer(&table.offer(&offer(3, 1, 16, 1, 1, 1))), 17);
    // At 128: 29 > 28; at 256: 158 > 156.
    assert_eq!(answer(&table.offer(&offer(3, 1, 8, 9, 9, 1))), 17);
    // At 128: 28 <= 28; at 256: 156 <= 156.
    assert_eq!(answer(&table.offer(&offer(3, 1, 8, 8, 8, 1))), 0);
    // Streams 2 and 3 are due at 128, 256, ... Stream 1 has to be through by 256.
    let expected = "2/0 at 100 for 20, 3/0 at 120 for 8, 1/0 at 128 for 100, 2/1 at 228 for 20, \
        3/1 at 248 for 8, 2/2 at 256 for 20, 3/2 at 276 for 8, 1/1 at 284 for 100, \
        2/3 at 384 for 20, 3/3 at 404 for 8, 2/4 at 512 for 20, 3/4 at 532 for 8, \
        1/2 at 540 for 100, 2/5 at 640 for 20, 3/5 at 660 for 8, 2/6 at 768 for 20, \
        3/6 at 788 for 8, 1/3 at 796 for 100, 2/7 at 896 for 20, 3/7 at 916 for 8";
    assert_eq!(plan(&mut table), expected);
    // The second end alone: 28 <= 28 at 128, but 2 * 28 + 101 = 157 > 156 at 256.
    let mut table = table_with(1, 100, &[offer(1, 1, 8, 28, 28, 1)]);
    assert_eq!(answer(&table.offer(&offer(2, 1, 4, 101, 101, 1))), 17);
    assert_eq!(answer(&table.offer(&offer(2, 1, 4, 100, 100, 1))), 0);
}

/// The end of the first period lies before, at, and a slot or two behind the end of the header.
#[test]
fn a_first_end_near_the_header() {
    for parts in [2, 4, 8, 16] {
        let end = 1_024 / parts;
        for (header, numbers) in [(end + 1, [17, 17]), (end, [17, 17]), (end - 1, [0, 17]), (end - 2, [0, 0])]
        {
            let mut table = Table::open(1, header).unwrap();
            let found = [1, 2].map(|stream| answer(&table.offer(&offer(stream, 1, parts, 1, 1, 1))));
            assert_eq!(found, numbers, "{parts} parts, header {header}");
        }
    }
}

/// h = 400: 112 slots up to the first half's end, of which stream 1 has 100. E = 1,024 - 400 - 200 = 424.
#[test]
fn extras_that_fail_the_test() {
    let fraction = |max| offer(1, 1, 2, 100, max, 1);
    let whole = |max| offer(2, 2, 1, 100, max, 1);
    // L = 424 - 100 = 324, d = 200 and 400, W = 800: extras of 200 * 324 / 800 = 81 and of 162. At 512:
    // 181 > 112. So W = 400, and stream 2 alone gets 400 * 324 / 400 = 324.
    let mut table = table_with(1, 400, &[fraction(300), whole(500)]);
    let division = table.division();
    assert_eq!((division.capacity, division.rest, division.wanted), (Slots(424), Slots(324), Slots(400)));
    assert!(division.fractions_left_out);
    assert_eq!(extras(&division), [0, 324]);
    let expected = "1/0 at 400 for 100, 2/0 at 500 for 12, 1/1 at 512 for 100, 2/0 at 612 for 412";
    assert_eq!(plan(&mut table), expected);
    // d = 200 and 200, W = 600: extras of 200 * 324 / 600 = 108, and 208 > 112. So W = 200 <= 324, and stream
    // 2 gets its 200. The slots from 900 on are idle.
    let mut table = table_with(1, 400, &[fraction(300), whole(300)]);
    let division = table.division();
    assert_eq!((division.wanted, division.fractions_left_out), (Slots(200), true));
    assert_eq!(extras(&division), [0, 200]);
    let expected = "1/0 at 400 for 100, 2/0 at 500 for 12, 1/1 at 512 for 100, 2/0 at 612 for 288";
    assert_eq!(plan(&mut table), expected);
    // d = 13 and 200, W = 226 <= 324: extras of 13, and 113 > 112.
    let division = table_with(1, 400, &[fraction(113), whole(300)]).division();
    assert_eq!((division.wanted, division.fractions_left_out), (Slots(200), true));
    assert_eq!(extras(&division), [0, 200]);
    // d = 12 and 200, W = 224 <= 324: extras of 12, and 112 <= 112.
    let mut table = table_with(1, 400, &[fraction(112), whole(300)]);
    let division = table.division();
    assert_eq!((division.wanted, division.fractions_left_out), (Slots(224), false));
    assert_eq!(extras(&division), [12, 200]);
    let expected = "1/0 at 400 for 112, 1/1 at 512 for 112, 2/0 at 624 for 300";
    assert_eq!(plan(&mut table), expected);
    // d = 13 and 300, W = 326 > 324: extras of 13 * 324 / 326 = 12 and 300 * 324 / 326 = 298, and 112 <= 112.
    let division = table_with(1, 400, &[fraction(113), whole(400)]).division();
    assert_eq!((division.wanted, division.fractions_left_out), (Slots(326), false));
    assert_eq!(extras(&division), [12, 298]);
    // No rest, no sharing: stream 2 takes all 424.
    let division = table_with(1, 400, &[fraction(300), offer(2, 2, 1, 424, 500, 1)]).division();
    assert_eq!((division.rest, division.wanted, division.fractions_left_out), (Slots(0), Slots(0), false));
    assert_eq!(extras(&division), [0, 0]);
}

/// h = 100; stream 1 has 28 of the 28 slots up to 128 and no room for extras, stream 2 is due at 256 first.
/// E = 1,024 - 100 - 8 * 28 - 4 * 50 = 500. One stream fails, and none of kind 1 gets an extra.
#[test]
fn extras_that_fail_at_a_later_end() {
    let tight = offer(1, 1, 8, 28, 28, 1);
    // d = 50, W = 200 <= 500. At 256: 2 * 28 + 100 = 156 <= 156.
    let division = table_with(1, 100, &[tight, offer(2, 1, 4, 50, 100, 1)]).division();
    assert_eq!((division.rest, division.wanted), (Slots(500), Slots(200)));
    assert_eq!((division.fractions_left_out, extras(&division)), (false, vec![0, 50]));
    // d = 51: 157 > 156. Without kind 2 there is nothing to share.
    let division = table_with(1, 100, &[tight, offer(2, 1, 4, 50, 101, 1)]).division();
    assert_eq!((division.rest, division.wanted), (Slots(500), Slots(0)));
    assert_eq!((division.fractions_left_out, extras(&division)), (true, vec![0, 0]));
    // A stream in halves would have room for an extra of 1: 4 * 28 + 2 * 101 + 2 = 316 <= 412 at 512. It gets
    // none with the others.
    let halves = offer(3, 1, 2, 1, 2, 1);
    let division = table_with(1, 100, &[tight, offer(2, 1, 4, 50, 101, 1), halves]).division();
    assert_eq!((division.fractions_left_out, extras(&division)), (true, vec![0, 0, 0]));
    let division = table_with(1, 100, &[tight, offer(2, 1, 4, 50, 100, 1), halves]).division();
    assert_eq!((division.fractions_left_out, extras(&division)), (false, vec![0, 50, 1]));
}

/// The worked cases once more as rows, and the stored list begins with them.
#[test]
fn the_cases_as_rows() {
    let output = "row,stream,job,start,length,answer\r\n\
        open,,,,,0\r\noffer,5,,,,0\r\noffer,7,,,,0\r\noffer,9,,,,0\r\n\
        beacon,,,,,0\r\nslot,5,0,50,100,\r\nslot,9,0,150,300,\r\nslot,7,0,450,62,\r\nslot,5,1,512,100,\r\n\
        slot,7,0,612,412,\r\n\
        beacon,,,,,0\r\nslot,5,0,50,262,\r\nslot,7,0,312,200,\r\nslot,5,1,512,262,\r\nslot,7,0,774,250,\r\n\
        open,,,,,0\r\noffer,1,,,,17\r\noffer,1,,,,0\r\noffer,2,,,,17\r\noffer,3,,,,17\r\noffer,3,,,,0\r\n\
        offer,4,,,,17\r\n\
        beacon,,,,,0\r\nslot,1,0,500,12,\r\nslot,1,1,512,12,\r\nslot,3,0,524,500,\r\nbeacon,,,,,0\r\n\
        open,,,,,0\r\noffer,1,,,,0\r\noffer,2,,,,0\r\noffer,3,,,,17\r\noffer,3,,,,17\r\noffer,3,,,,0\r\n\
        beacon,,,,,0\r\nslot,2,0,100,20,\r\nslot,3,0,120,8,\r\nslot,1,0,128,100,\r\nslot,2,1,228,20,\r\n\
        slot,3,1,248,8,\r\nslot,2,2,256,20,\r\nslot,3,2,276,8,\r\nslot,1,1,284,100,\r\nslot,2,3,384,20,\r\n\
        slot,3,3,404,8,\r\nslot,2,4,512,20,\r\nslot,3,4,532,8,\r\nslot,1,2,540,100,\r\nslot,2,5,640,20,\r\n\
        slot,3,5,660,8,\r\nslot,2,6,768,20,\r\nslot,3,6,788,8,\r\nslot,1,3,796,100,\r\nslot,2,7,896,20,\r\n\
        slot,3,7,916,8,\r\n\
        open,,,,,0\r\noffer,1,,,,0\r\noffer,2,,,,0\r\n\
        beacon,,,,,0\r\nslot,1,0,400,100,\r\nslot,2,0,500,12,\r\nslot,1,1,512,100,\r\nslot,2,0,612,412,\r\n\
        offer,2,,,,0\r\n\
        beacon,,,,,0\r\nslot,1,0,400,100,\r\nslot,2,0,500,12,\r\nslot,1,1,512,100,\r\nslot,2,0,612,288,\r\n\
        offer,1,,,,0\r\noffer,2,,,,0\r\n\
        beacon,,,,,0\r\nslot,1,0,400,112,\r\nslot,1,1,512,112,\r\nslot,2,0,624,300,\r\n\
        offer,1,,,,0\r\noffer,2,,,,0\r\n\
        beacon,,,,,0\r\nslot,1,0,400,100,\r\nslot,2,0,500,12,\r\nslot,1,1,512,100,\r\nslot,2,0,612,288,\r\n\
        open,,,,,0\r\noffer,1,,,,0\r\noffer,2,,,,0\r\n\
        beacon,,,,,0\r\nslot,1,0,100,28,\r\nslot,1,1,128,28,\r\nslot,2,0,156,100,\r\nslot,1,2,256,28,\r\n\
        slot,2,1,284,100,\r\nslot,1,3,384,28,\r\nslot,1,4,512,28,\r\nslot,2,2,540,100,\r\nslot,1,5,640,28,\r\n\
        slot,1,6,768,28,\r\nslot,2,3,796,100,\r\nslot,1,7,896,28,\r\n\
        open,,,,,0\r\noffer,1,,,,0\r\noffer,2,,,,0\r\n\
        beacon,,,,,0\r\nslot,1,0,100,28,\r\nslot,1,1,128,28,\r\nslot,2,0,156,50,\r\nslot,1,2,256,28,\r\n\
        slot,2,1,284,50,\r\nslot,1,3,384,28,\r\nslot,1,4,512,28,\r\nslot,2,2,540,50,\r\nslot,1,5,640,28,\r\n\
        slot,1,6,768,28,\r\nslot,2,3,796,50,\r\nslot,1,7,896,28,\r\n";
    let list = lists::make("header", lists::STORED_SEED, 0).unwrap();
    let found = String::from_utf8(run_bytes(&list)).unwrap();
    assert_eq!(&found[..output.len()], output);
    let stored = concat!(env!("CARGO_MANIFEST_DIR"), "/data/header.out");
    assert!(std::fs::read(stored).unwrap().starts_with(output.as_bytes()));
}

/// Random requests, taken together without being asked whether there is time for them.
fn random_entries(random: &mut Random, interval: u64, count: u64, thin: u64) -> Vec<Entry> {
    let style = Style { streams: 40, life: 5, thin };
    let offers = (0..count).map(|_| random_offer(random, interval, style));
    offers.map(|offer| Entry::accepted(Request::read(&offer, Slots(interval)).unwrap())).collect()
}

/// Random requests of kind 1 alone.
fn random_fractions(random: &mut Random, interval: u64) -> Vec<Entry> {
    let most = random.between(1, 6);
    let thin = *random.pick(&[2, 6, 20]);
    let mut entries = random_entries(random, interval, 3 * most, thin);
    entries.retain(|entry| entry.turn().is_none());
    entries
}

/// Without a header the test, made job by job, refuses nothing that the capacity has room for, with minimums
/// or with the extras of a sharing. So it need not be made there.
#[test]
fn without_a_header_the_test_always_passes() {
    let mut random = Random::new(501);
    let (mut room, mut full, mut shared) = (0, 0, 0);
    for _ in 0..60_000 {
        let interval = Slots(*random.pick(&[2, 12, 60, 120, 720, 1_024, 3_072, 46_080, 1_024_000]));
        let entries = random_fractions(&mut random, interval.0);
        match capacity(interval, Slots(0), &entries) {
            Some(_) => {
                assert!(passes_job_by_job(interval, Slots(0), &entries, |_| Slots(0)), "{entries:?}");
                assert!(passes_header_test(interval, Slots(0), &entries, |_| Slots(0)), "{entries:?}");
                let division = Division::of(interval, Slots(0), &entries).unwrap();
                assert!(!division.fractions_left_out, "{entries:?}");
                let extra = |i: usize| division.shares[i].extra;
                assert!(passes_job_by_job(interval, Slots(0), &entries, extra), "{entries:?}");
                shared += usize::from(division.shares.iter().any(|share| share.extra > Slots(0)));
                room += 1;
            }
            None => full += 1,
        }
    }
    assert!(room > 20_000 && full > 5_000 && shared > 10_000, "one-sided: {room}, {full}, {shared}");
}

/// The extras for a comparison: none, those of a sharing without a header, or any.
fn some_extras(random: &mut Random, interval: Slots, entries: &[Entry], which: usize) -> Option<Vec<Slots>> {
    Some(match which {
        0 => vec![Slots(0); entries.len()],
        1 => Division::of(interval, Slots(0), entries)?.shares.iter().map(|share| share.extra).collect(),
        _ => {
            let most = interval.0 / *random.pick(&[32, 256, 1_024]);
            entries.iter().map(|_| Slots(random.between(0, most))).collect()
        }
    })
}

/// Added up by numbers of parts or job by job, the test comes to the same answer.
#[test]
fn by_parts_and_job_by_job_agree() {
    let mut random = Random::new(503);
    // How often the answer was no and yes, by the extras and by where the header ends: nowhere, early, near an
    // end of a period, near the end of the interval, at the longest header that passes, a slot further.
    let mut counts = [[[0; 2]; 6]; 3];
    let mut streams_in_parts = [0; 17];
    let mut without_kind_1 = 0;
    for _ in 0..10_000 {
        let units = *random.pick(&[1, 3, 45, 105, 143, 630, 945, 990, 1_000]);
        let units = if random.chance(50) { units } else { random.between(1, 1_000) };
        let interval = Slots(1_024 * units);
        let most = *random.pick(&[2, 6, 12, 32]);
        let (count, thin) = (random.between(1, most), *random.pick(&[2, 8, 32, 128]));
        let entries = random_entries(&mut random, interval.0, count, thin);
        let offers: Vec<Offer> = entries.iter().map(|entry| entry.request.to_offer()).collect();
        let fractions: Vec<u64> = offers.iter().filter(|o| o.kind == 1).map(|o| o.period.into()).collect();
        if fractions.is_empty() {
            let header = Slots(random.between(0, interval.0 - 1));
            assert!(passes_job_by_job(interval, header, &entries, |_| Slots(1)));
            assert!(passes_header_test(interval, header, &entries, |_| Slots(1)));
            without_kind_1 += 1;
            continue;
        }
        fractions.iter().for_each(|&parts| streams_in_parts[parts as usize] += 1);
        for (which, counts) in counts.iter_mut().enumerate() {
            let Some(extras) = some_extras(&mut random, interval, &entries, which) else { continue };
            let slow = |header| passes_job_by_job(interval, Slots(header), &entries, |i| extras[i]);
            let fast = |header| passes_header_test(interval, Slots(header), &entries, |i| extras[i]);
            // Without a header the test is made only where the whole interval has room for the needs.
            let needs = offers.iter().zip(&extras).filter(|(offer, _)| offer.kind == 1);
            let needs: u64 = needs.map(|(o, extra)| u64::from(o.period) * (u64::from(o.min) + extra.0)).sum();
            let room = needs <= interval.0;
            assert_eq!(slow(0), room, "{entries:?} {extras:?}");
            assert!(fast(0) || !room, "{entries:?} {extras:?}");
            counts[0][usize::from(room)] += 1;
            let mut compare = |place: usize, header: u64| {
                let header = header.clamp(1, interval.0 - 1);
                assert_eq!(fast(header), slow(header), "{interval:?} {header} {entries:?} {extras:?}");
                counts[place][usize::from(fast(header))] += 1;
            };
            compare(1, random.between(1, 64));
            let parts = *random.pick(&fractions);
            let end = interval.0 / parts * if random.chance(80) { 1 } else { random.between(1, parts) };
            let near = *random.pick(&[3, 40, interval.0 / 64, interval.0 / 16]);
            compare(2, end + 2 - random.between(0, near));
            compare(3, interval.0 - random.between(1, 4));
            if room {
                let longest = lists::last_that_holds(0, interval.0, slow);
                if longest > 0 {
                    compare(4, longest);
                }
                compare(5, longest + 1);
            }
        }
    }
    println!("{counts:?} {streams_in_parts:?} {without_kind_1}");
    assert!(without_kind_1 > 1_000, "{without_kind_1}");
    assert!(streams_in_parts[2..].iter().all(|&streams| streams > 300), "{streams_in_parts:?}");
    for [without, early, near_end, near_whole, longest, further] in counts {
        assert!(without[1] > 5_000, "{counts:?}");
        assert!(early[0] > 100 && early[1] > 5_000, "{counts:?}");
        assert!(near_end[0] > 5_000 && near_end[1] > 200, "{counts:?}");
        // Every kind 1 stream has an end before the last few slots, and it lies in the header.
        assert!(near_whole[0] > 5_000 && near_whole[1] == 0, "{counts:?}");
        assert!(longest[0] == 0 && longest[1] > 5_000, "{counts:?}");
        assert!(further[0] > 5_000 && further[1] == 0, "{counts:?}");
    }
}

/// With a header the test passes just where the jobs alone, run slot by slot, all come to their end in time.
#[test]
fn the_test_says_whether_kind_1_is_in_time() {
    let mut random = Random::new(502);
    let (mut yes, mut no) = (0, 0);
    for _ in 0..60_000 {
        let interval = *random.pick(&[2, 6, 12, 24, 60, 120, 240]);
        let header = header_below(&mut random, interval);
        let entries = random_fractions(&mut random, interval);
        let (interval, header) = (Slots(interval), Slots(header));
        if capacity(interval, header, &entries).is_none() {
            continue;
        }
        let mut extras = vec![Slots(0); entries.len()];
        if random.chance(50) {
            extras.iter_mut().for_each(|extra| *extra = Slots(random.between(0, 3)));
        }
        // Nothing but what is left until the next due time matters here, so the jobs are run without records.
        let mut jobs: Vec<(u64, u64, u64)> = Vec::new();
        for (entry, extra) in entries.iter().zip(&extras) {
            let Offer { period, min, .. } = entry.request.to_offer();
            let part = interval.0 / u64::from(period);
            let need = u64::from(min) + extra.0;
            jobs.extend((0..u64::from(period)).map(|j| (part * (j + 1), part * j, need)));
        }
        let slow = passes_job_by_job(interval, header, &entries, |i| extras[i]);
        let fast = passes_header_test(interval, header, &entries, |i| extras[i]);
        // With the extras made up here, kind 1 may have more than there is. Without a header the test is then
        // not made.
        if jobs.iter().map(|job| job.2).sum::<u64>() > interval.0 - header.0 {
            assert!(!slow && (!fast || header == Slots(0)));
            continue;
        }
        jobs.sort();
        let mut in_time = true;
        for slot in header.0..interval.0 {
            if let Some((due, _, need)) = jobs.iter_mut().find(|job| job.1 <= slot && job.2 > 0) {
                in_time &= slot < *due;
                *need -= 1;
            }
        }
        in_time &= jobs.iter().all(|job| job.2 == 0);
        assert_eq!([slow, fast], [in_time; 2], "{header:?} {entries:?}");
        if in_time {
            yes += 1;
        } else {
            no += 1;
        }
    }
    assert!(yes > 5_000 && no > 1_000, "one-sided: {yes} and {no}");
}
