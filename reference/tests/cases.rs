//! The worked cases, on the library and on the program, and the smaller rules around them.

mod common;

use common::{beacon, records};
use reference::rows::run_bytes;
use reference::{EntryWords, Offer, PLAN_WORDS, Record, Refusal, Slots, Table, answer, window};

fn offer(stream: u32, kind: u32, period: u32, min: u32, max: u32, life: u32) -> Offer {
    Offer { stream, kind, period, min, max, life }
}

fn record(stream: u32, job: u32, start: u64, length: u64) -> Record {
    Record { stream, job, start: Slots(start), length: Slots(length) }
}

fn case_1_table() -> Table {
    let mut table = Table::open(1, 0).unwrap();
    assert_eq!(table.offer(&offer(5, 1, 2, 100, 300, 4)), Ok(()));
    assert_eq!(table.offer(&offer(7, 2, 2, 600, 1_000, 4)), Ok(()));
    assert_eq!(table.offer(&offer(9, 3, 1, 300, 0, 1)), Ok(()));
    table
}

#[test]
fn case_1_rows() {
    let input = b"open,1,,,,,\r\noffer,5,1,2,100,300,4\r\noffer,7,2,2,600,1000,4\r\noffer,9,3,1,300,0,1\r\n\
        beacon,,,,,,\r\n";
    let output = "row,stream,job,start,length,answer\r\nopen,,,,,0\r\noffer,5,,,,0\r\noffer,7,,,,0\r\n\
        offer,9,,,,0\r\nbeacon,,,,,0\r\nslot,5,0,0,100,\r\nslot,9,0,100,300,\r\nslot,7,0,400,112,\r\n\
        slot,5,1,512,100,\r\nslot,7,0,612,412,\r\n";
    assert_eq!(String::from_utf8(run_bytes(input)).unwrap(), output);
}

#[test]
fn case_1_plan() {
    let mut table = case_1_table();
    let plan = beacon(&mut table);
    let expected = [
        record(5, 0, 0, 100),
        record(9, 0, 100, 300),
        record(7, 0, 400, 112),
        record(5, 1, 512, 100),
        record(7, 0, 612, 412),
    ];
    assert_eq!(plan, expected);
    assert_eq!(table.enquire(9).answer, 20);
}

#[test]
fn case_2_and_3() {
    let mut table = case_1_table();
    beacon(&mut table);
    let second = table.division();
    assert_eq!((second.rest, second.wanted), (Slots(748), Slots(800)));
    let extras: Vec<u64> = second.shares.iter().map(|share| share.extra.0).collect();
    assert_eq!(extras, [187, 374]);
    let plan = beacon(&mut table);
    let expected =
        [record(5, 0, 0, 287), record(7, 0, 287, 225), record(5, 1, 512, 287), record(7, 0, 799, 225)];
    assert_eq!(plan, expected);
    let third = table.division();
    assert_eq!(third.rest, Slots(224));
    let extras: Vec<u64> = third.shares.iter().map(|share| share.extra.0).collect();
    assert_eq!(extras, [56, 112]);
}

#[test]
fn case_4() {
    let mut table = case_1_table();
    let before = table.clone();
    assert_eq!(table.offer(&offer(11, 3, 2, 749, 0, 2)), Err(Refusal::NoTime));
    assert_eq!(table, before);
    assert_eq!(table.offer(&offer(11, 3, 2, 748, 0, 2)), Ok(()));
}

#[test]
fn case_5() {
    let mut table = Table::open(1, 0).unwrap();
    table.offer(&offer(1, 2, 2, 1_024, 1_024, 2)).unwrap();
    table.offer(&offer(2, 2, 2, 1_024, 1_024, 2)).unwrap();
    beacon(&mut table);
    table.withdraw(1).unwrap();
    assert_eq!(answer(&table.offer(&offer(3, 2, 1, 1, 1, 1))), 17);
}

#[test]
fn case_6() {
    let mut table = Table::open(1, 0).unwrap();
    assert_eq!(answer(&table.offer(&offer(1, 1, 2, 512, 512, 1))), 0);
    assert_eq!(answer(&table.offer(&offer(2, 1, 2, 1, 1, 1))), 17);
}

#[test]
fn case_7() {
    assert_eq!(answer(&Table::open(1, 0).unwrap().offer(&offer(1, 1, 3, 1, 1, 1))), 13);
    assert_eq!(answer(&Table::open(3, 0).unwrap().offer(&offer(1, 1, 3, 1, 1, 1))), 0);
}

#[test]
fn case_8() {
    let mut table = Table::open(1, 0).unwrap();
    assert_eq!(answer(&table.offer(&offer(1, 2, 2, 1, 1, 3))), 15);
    assert_eq!(answer(&table.offer(&offer(1, 2, 2, 1, 1, 4))), 0);
}

#[test]
fn case_9() {
    let mut table = case_1_table();
    let mut memory = vec![7; PLAN_WORDS];
    let count = table.beacon(&mut memory).count as u32;
    assert_eq!(count, 5);
    let mut number = 99;
    let part = window(&memory, count, 100, 512, &mut number);
    assert_eq!(number, 0);
    assert_eq!(records(part, 2), [record(9, 0, 100, 300), record(7, 0, 400, 112)]);
    assert!(std::ptr::eq(part, &memory[4..12]), "the window is not a part of the lent plan");
    number = 99;
    assert_eq!(window(&memory, count, 512, 512, &mut number), []);
    assert_eq!(number, 0);
    assert_eq!(window(&memory, count, 513, 512, &mut number), []);
    assert_eq!(number, 41);
}

#[test]
fn case_10() {
    let mut table = case_1_table();
    let before = table.clone();
    let mut short = vec![7; PLAN_WORDS - 1];
    let refused = table.beacon(&mut short);
    assert_eq!((refused.answer, refused.count), (30, 0));
    assert!(short.iter().all(|&word| word == 7));
    assert_eq!(table, before);
    assert_eq!(table.beacon(&mut []).answer, 30);
    let mut enough = vec![7; PLAN_WORDS];
    let done = table.beacon(&mut enough);
    assert_eq!((done.answer, done.count), (0, 5));
    assert!(enough[20..].iter().all(|&word| word == 7));
    let mut empty = Table::open(1, 0).unwrap();
    let done = empty.beacon(&mut enough[20..]);
    assert_eq!((done.answer, done.count), (30, 0));
    let mut untouched = vec![7; PLAN_WORDS];
    let done = empty.beacon(&mut untouched);
    assert_eq!((done.answer, done.count), (0, 0));
    assert!(untouched.iter().all(|&word| word == 7));
}

#[test]
fn opening_range() {
    for (time_units, number) in [(0, 1), (1, 0), (2, 0), (999, 0), (1_000, 0), (1_001, 1), (u32::MAX, 1)] {
        assert_eq!(answer(&Table::open(time_units, 0)), number);
    }
    assert_eq!(Table::open(1_000, 0).unwrap().interval(), Slots(1_024_000));
    assert_eq!(Table::open(1_000, 0).unwrap().header(), Slots(0));
}

#[test]
fn window_refusals_in_order() {
    let plan = [1, 0, 10, 5, 2, 0, 20, 5, 3, 0, 20, 5];
    let mut number = 0;
    let mut ask = |count, from, until| {
        let part = window(&plan, count, from, until, &mut number).to_vec();
        (number, part)
    };
    assert_eq!(ask(4, 5, 4), (40, vec![]));
    assert_eq!(ask(u32::MAX, 0, 0), (40, vec![]));
    assert_eq!(ask(1 << 30, 0, 0), (40, vec![]));
    assert_eq!(ask(3, 5, 4), (41, vec![]));
    assert_eq!(ask(3, 4, 5), (42, vec![]));
    assert_eq!(ask(3, 0, u32::MAX), (42, vec![]));
    assert_eq!(ask(2, 0, u32::MAX), (0, plan[..8].to_vec()));
    assert_eq!(ask(2, 10, 20), (0, plan[..4].to_vec()));
    assert_eq!(ask(2, 11, 20), (0, vec![]));
    assert_eq!(ask(2, 11, 21), (0, plan[4..8].to_vec()));
    assert_eq!(ask(2, 21, 30), (0, vec![]));
    assert_eq!(ask(0, 0, 0), (0, vec![]));
    assert_eq!(window(&[], 0, 3, 3, &mut number), []);
    assert_eq!(window(&[], 1, 3, 3, &mut number), []);
    assert_eq!(number, 40);
}

#[test]
fn windows_agree_with_a_plain_search() {
    let mut random = reference::random::Random::new(3);
    for _ in 0..5_000 {
        let count = random.word(0, 6);
        let spare = random.between(0, 5) as usize;
        let mut plan: Vec<u32> = (0..4 * count as usize + spare).map(|_| random.word(0, 9)).collect();
        if random.chance(70) {
            for place in 0..count as usize {
                plan[4 * place + 2] = 3 * place as u32 + random.word(0, 2);
            }
        }
        let (from, until) = (random.word(0, 20), random.word(0, 20));
        let starts: Vec<u32> = (0..count as usize).map(|place| plan[4 * place + 2]).collect();
        let mut number = 77;
        let part = window(&plan, count, from, until, &mut number);
        if from > until {
            assert_eq!((number, part.len()), (41, 0));
        } else if (1..starts.len()).any(|place| starts[place] <= starts[place - 1]) {
            assert_eq!((number, part.len()), (42, 0));
        } else {
            let expected: Vec<u32> = (0..count as usize)
                .filter(|&place| (from..until).contains(&starts[place]))
                .flat_map(|place| plan[4 * place..4 * place + 4].to_vec())
                .collect();
            assert_eq!((number, part), (0, &expected[..]));
        }
    }
}

#[test]
fn entries_over_time() {
    let mut table = case_1_table();
    assert_eq!(table.enquire(6), reference::EnquiryAnswer { answer: 20, entry: EntryWords::default() });
    let shown = |table: &Table, stream| {
        let found = table.enquire(stream);
        let entry = found.entry;
        (found.answer, entry.life_left, entry.owed, entry.given, entry.left)
    };
    assert_eq!(shown(&table, 5), (0, 4, 0, 0, 0));
    assert_eq!(shown(&table, 7), (0, 4, 600, 0, 2));
    assert_eq!(shown(&table, 9), (0, 1, 300, 0, 1));
    assert_eq!(table.enquire(7).entry.offer, offer(7, 2, 2, 600, 1_000, 4));
    beacon(&mut table);
    assert_eq!(shown(&table, 5), (0, 3, 0, 0, 0));
    assert_eq!(shown(&table, 7), (0, 3, 76, 524, 1));
    assert_eq!(shown(&table, 9), (20, 0, 0, 0, 0));
    beacon(&mut table);
    assert_eq!(shown(&table, 7), (0, 2, 600, 0, 2));
    beacon(&mut table);
    assert_eq!(shown(&table, 7), (0, 1, 0, 712, 1));
    beacon(&mut table);
    assert_eq!(shown(&table, 7).0, 20);
    assert_eq!(shown(&table, 5).0, 20);
    assert!(table.held().is_empty());
}

#[test]
fn refusals_of_an_offer_in_order() {
    let mut table = Table::open(1, 0).unwrap();
    let ask = |table: &mut Table, words: [u32; 6]| {
        let [stream, kind, period, min, max, life] = words;
        let before = table.clone();
        let number = answer(&table.offer(&offer(stream, kind, period, min, max, life)));
        if number != 0 {
            assert_eq!(*table, before);
        }
        number
    };
    let big = u32::MAX;
    assert_eq!(ask(&mut table, [1, 1, 16, 1, 1, 65_535]), 0);
    for (words, number) in [
        ([0, 0, 0, 0, 0, 0], 10),
        ([65_536, 0, 0, 0, 0, 0], 10),
        ([big, big, big, big, big, big], 10),
        ([1, 0, 0, 0, 0, 0], 11),
        ([65_535, 0, 0, 0, 0, 0], 12),
        ([65_535, 4, 0, 0, 0, 0], 12),
        ([65_535, big, 1, 1, 1, 1], 12),
        ([2, 1, 0, 0, 0, 0], 13),
        ([2, 1, 1, 0, 0, 0], 13),
        ([2, 1, 17, 0, 0, 0], 13),
        ([2, 1, 15, 0, 0, 0], 13),
        ([2, 1, big, 1, 1, 1], 13),
        ([2, 2, 0, 0, 0, 0], 13),
        ([2, 2, 256, 1, 1, 256], 13),
        ([2, 3, 0, 0, 0, 0], 13),
        ([2, 3, 65_536, 1, 0, 65_536], 13),
        ([2, 1, 2, 0, 0, 0], 14),
        ([2, 1, 2, 2, 1, 0], 14),
        ([2, 1, 2, 1, 513, 0], 14),
        ([2, 1, 2, big, big, 0], 14),
        ([2, 2, 2, 0, 1, 0], 14),
        ([2, 2, 2, 2, 1, 0], 14),
        ([2, 2, 2, 1, 2_049, 0], 14),
        ([2, 2, 255, 1, 261_121, 0], 14),
        ([2, 3, 2, 0, 0, 0], 14),
        ([2, 3, 2, 1, 1, 0], 14),
        ([2, 3, 2, 1, big, 0], 14),
        ([2, 1, 2, 512, 512, 0], 15),
        ([2, 1, 2, 512, 512, 65_536], 15),
        ([2, 2, 2, 2_048, 2_048, 0], 15),
        ([2, 2, 2, 2_048, 2_048, 65_535], 15),
        ([2, 2, 2, 2_048, 2_048, 65_536], 15),
        ([2, 2, 255, 261_120, 261_120, big], 15),
        ([2, 3, 2, big, 0, 1], 15),
        ([2, 3, 2, big, 0, 3], 15),
        ([2, 1, 2, 512, 512, 65_535], 17),
        ([2, 2, 2, 2_048, 2_048, 65_534], 17),
        ([2, 3, 65_535, big, 0, 65_535], 17),
    ] {
        assert_eq!(ask(&mut table, words), number, "{words:?}");
    }
    for stream in 2..=32 {
        assert_eq!(ask(&mut table, [stream, 1, 16, 1, 64, 65_535]), 0);
    }
    assert_eq!(ask(&mut table, [33, 2, 2, 2_048, 2_048, 3]), 15);
    assert_eq!(ask(&mut table, [33, 2, 2, 2_048, 2_048, 4]), 16);
    assert_eq!(ask(&mut table, [32, 2, 2, 2_048, 2_048, 4]), 11);
    assert_eq!(answer(&table.withdraw(33)), 20);
    assert_eq!(answer(&table.withdraw(0)), 20);
    assert_eq!(answer(&table.withdraw(16)), 0);
    assert_eq!(answer(&table.withdraw(16)), 20);
    assert_eq!(ask(&mut table, [33, 2, 2, 2_048, 2_048, 4]), 17);
    assert_eq!(ask(&mut table, [33, 2, 2, 2, 2_048, 4]), 0);
    assert_eq!(ask(&mut table, [16, 2, 2, 2, 2_048, 4]), 16);
}

#[test]
fn ties_go_as_they_should() {
    // Pieces of both kinds and deadlines, and streams of kind 1 whose last jobs are due with the pieces.
    let mut table = Table::open(1, 0).unwrap();
    for words in [
        offer(30, 3, 2, 600, 0, 2),
        offer(40, 2, 2, 10, 10, 2),
        offer(20, 3, 1, 10, 0, 1),
        offer(50, 2, 1, 10, 10, 1),
        offer(60, 1, 2, 10, 10, 1),
        offer(55, 1, 4, 10, 10, 1),
        offer(58, 1, 2, 10, 10, 1),
        offer(10, 3, 2, 10, 0, 2),
    ] {
        table.offer(&words).unwrap();
    }
    let expected = [
        record(55, 0, 0, 10),
        record(58, 0, 10, 10),
        record(60, 0, 20, 10),
        record(50, 0, 30, 10),
        record(20, 0, 40, 10),
        record(40, 0, 50, 10),
        record(10, 0, 60, 10),
        record(30, 0, 70, 186),
        record(55, 1, 256, 10),
        record(30, 0, 266, 246),
        record(55, 2, 512, 10),
        record(58, 1, 522, 10),
        record(60, 1, 532, 10),
        record(30, 0, 542, 168),
        record(55, 3, 768, 10),
    ];
    assert_eq!(beacon(&mut table), expected);
}
