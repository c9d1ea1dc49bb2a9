//! The made-up lists reach what headers bring: 61, 17 by the header test alone, and a sharing without kind 1.
//! Numbers of every width are printed for them.

mod common;

use common::{beacon, fits_but_for_the_test, least_room};
use reference::lists;
use reference::request::Request;
use reference::rows::{Call, Cutter, Row, run_bytes};
use reference::{Entry, Refusal, Slots, Table};

/// How often a list came to each place.
#[derive(Clone, Copy, Debug, Default)]
struct Reached {
    rows: usize,
    openings_with_header: usize,
    refused_header: usize,
    refused_form: usize,
    no_time: usize,
    /// Refused 17, and E and the deadlines would have passed.
    no_time_by_test: usize,
    /// Accepted kind 1 requests after which the needs due by some end are all the slots up to it.
    just_fitting: usize,
    beacons: usize,
    /// Beacons that shared over kind 2 only.
    left_out: usize,
    /// Those of them in which kind 2 got all it could take, and those in which it did not.
    left_out_enough: usize,
    left_out_cut: usize,
}

fn follow(list: &[u8]) -> Reached {
    let mut reached = Reached::default();
    let mut table: Option<Table> = None;
    let mut take = |row: Row| -> Result<(), ()> {
        reached.rows += 1;
        let call = match row {
            Row::Whole(bytes) => Call::read(bytes),
            Row::TooLong => None,
        };
        match (call, table.as_mut()) {
            (None, _) => reached.refused_form += 1,
            (Some(Call::Open { time_units, header }), _) => match Table::open(time_units, header) {
                Ok(opened) => {
                    reached.openings_with_header += usize::from(header > 0);
                    table = Some(opened);
                }
                Err(Refusal::Header) => reached.refused_header += 1,
                Err(_) => {}
            },
            (Some(_), None) => {}
            (Some(Call::Offer(offer)), Some(table)) => match table.offer(&offer) {
                Ok(()) => {
                    reached.just_fitting += usize::from(offer.kind == 1 && least_room(table) == Some(0))
                }
                Err(Refusal::NoTime) => {
                    reached.no_time += 1;
                    let request = Request::read(&offer, table.interval()).unwrap();
                    let mut entries = table.held().to_vec();
                    entries.push(Entry::accepted(request));
                    let alone = fits_but_for_the_test(table.interval(), table.header(), &entries);
                    reached.no_time_by_test += usize::from(alone);
                }
                Err(_) => {}
            },
            (Some(Call::Withdraw(stream)), Some(table)) => {
                let _ = table.withdraw(stream);
            }
            (Some(Call::Beacon), Some(table)) => {
                reached.beacons += 1;
                let division = table.division();
                if division.fractions_left_out {
                    reached.left_out += 1;
                    let enough = division.rest >= division.wanted;
                    reached.left_out_enough += usize::from(division.wanted > Slots(0) && enough);
                    reached.left_out_cut += usize::from(!enough);
                }
                beacon(table);
            }
        }
        Ok(())
    };
    let mut cutter = Cutter::new();
    cutter.feed(list, &mut take).unwrap();
    cutter.finish(&mut take).unwrap();
    reached
}

/// So many in ten thousand rows.
fn rate(count: usize, rows: usize) -> usize {
    count * 10_000 / rows
}

#[test]
fn headers_in_the_list_of_that_name() {
    for seed in [lists::STORED_SEED, 1, 2, 3] {
        let found = follow(&lists::make("header", seed, 300).unwrap());
        println!("header {seed}: {found:?}");
        assert!(found.rows > 3_000);
        let rate = |count| rate(count, found.rows);
        assert!(rate(found.openings_with_header) > 200, "{found:?}");
        assert!(rate(found.refused_header) > 60, "{found:?}");
        assert!(rate(found.no_time_by_test) > 300, "{found:?}");
        assert!(rate(found.just_fitting) > 150, "{found:?}");
        assert!(rate(found.left_out) > 500, "{found:?}");
        assert!(found.left_out < found.beacons * 9 / 10, "{found:?}");
        assert!(rate(found.left_out_enough) > 50 && rate(found.left_out_cut) > 50, "{found:?}");
    }
}

#[test]
fn headers_in_the_other_lists() {
    for (name, size) in [
        ("headed-damaged", 4_000),
        ("headed-full", 40),
        ("headed-tight", 100),
        ("headed-large", 20),
        ("headed-school", 1),
        ("headed-mix", 4_000),
    ] {
        let mut all = Reached::default();
        for seed in 0..if name == "headed-school" { 40 } else { 2 } {
            let found = follow(&lists::make(name, seed, size).unwrap());
            all.rows += found.rows;
            all.openings_with_header += found.openings_with_header;
            all.refused_header += found.refused_header;
            all.refused_form += found.refused_form;
            all.no_time += found.no_time;
            all.no_time_by_test += found.no_time_by_test;
            all.just_fitting += found.just_fitting;
            all.beacons += found.beacons;
            all.left_out += found.left_out;
            all.left_out_enough += found.left_out_enough;
            all.left_out_cut += found.left_out_cut;
        }
        println!("{name}: {all:?}");
        assert!(all.rows > 2_000, "{name}: {all:?}");
        assert!(all.openings_with_header > 0, "{name}: {all:?}");
        assert!(all.refused_header > 0, "{name}: {all:?}");
        assert!(all.no_time_by_test > 0, "{name}: {all:?}");
        assert!(all.left_out > 0, "{name}: {all:?}");
    }
}

/// Lists without headers never come to any of these places.
#[test]
fn no_headers_in_the_lists_without() {
    for name in ["cases", "edges", "damaged", "full", "tight", "long", "large", "school", "mix"] {
        let found = follow(&lists::make(name, 7, lists::usual_size(name)).unwrap());
        let none = [found.openings_with_header, found.refused_header, found.no_time_by_test, found.left_out];
        assert_eq!(none, [0; 4], "{name}: {found:?}");
    }
}

/// The third field of an opening is damaged too.
#[test]
fn damaged_header_fields() {
    for name in ["headed-damaged", "headed-mix"] {
        let list = lists::make(name, 9, 6_000).unwrap();
        let mut counts = [0; 3];
        for row in list.split(|&byte| byte == b'\n') {
            let mut fields = row.split(|&byte| byte == b',');
            let (Some(b"open"), Some(_), Some(third)) = (fields.next(), fields.next(), fields.next()) else {
                continue;
            };
            let read = Call::read(row.strip_suffix(b"\r").unwrap_or(row));
            match (third.is_empty(), read) {
                (true, _) => counts[0] += 1,
                (false, Some(_)) => counts[1] += 1,
                (false, None) => counts[2] += 1,
            }
        }
        println!("{name}: header field empty, a number, broken: {counts:?}");
        assert!(counts.iter().all(|&count| count >= 15), "{name}: {counts:?}");
    }
}

/// Counted over what is printed for a list, so that a comparison of two programs sees these numbers.
#[test]
fn printed_numbers_have_every_width_and_many_end_in_zeros() {
    for seed in [1, 2, 3] {
        let output = run_bytes(&lists::make(lists::DIGITS, seed, 20_000).unwrap());
        let output = String::from_utf8(output).unwrap();
        let is_number = |text: &&str| text.starts_with(|c: char| c.is_ascii_digit());
        let numbers: Vec<&str> = output.split([',', '\r', '\n']).filter(is_number).collect();
        for width in 1..=10 {
            let same: Vec<&str> = numbers.iter().copied().filter(|text| text.len() == width).collect();
            let in_zero = same.iter().filter(|text| text.ends_with('0')).count();
            let others = same.len() - in_zero;
            println!("{seed}: {width} digits, {in_zero} end in 0 and {others} do not");
            assert!(in_zero >= 500 && others >= 500, "{width} digits: {in_zero} end in 0, {others} do not");
            let least = format!("1{}", "0".repeat(width - 1));
            let largest = if width < 10 { "9".repeat(width) } else { "4294967295".to_string() };
            for text in [least, largest] {
                assert!(same.contains(&text.as_str()), "{text}");
            }
        }
        assert!(numbers.contains(&"4294967290"));
    }
}
