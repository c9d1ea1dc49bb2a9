//! Made-up lists of input rows, each decided by its name, a seed and a size.
//!
//! The lists know the rules only roughly: enough to hit every limit from both sides and to keep most offers
//! sensible. What the rows should give is for the program under test to say. Only `tight` and `header` ask
//! the planner, to find the last slot that is free and the longest header that leaves it.

use crate::random::Random;
use crate::request::Offer;
use crate::table::Table;

/// The names of the lists that are stored.
pub const NAMES: [&str; 10] =
    ["cases", "edges", "damaged", "full", "tight", "long", "large", "school", "mix", "header"];

/// The names of lists that go like the one behind the dash, with headers at their openings. They are made
/// afresh for comparisons and not stored.
pub const HEADED: [&str; 6] =
    ["headed-damaged", "headed-full", "headed-tight", "headed-large", "headed-school", "headed-mix"];

/// The name of a list of calls whose streams have 1 to 10 digits, made afresh like those with headers.
pub const DIGITS: &str = "digits";

/// The name of the list behind the dash, and whether there was one.
fn plain_name(name: &str) -> (&str, bool) {
    match name.strip_prefix("headed-") {
        Some(plain) if HEADED.contains(&name) => (plain, true),
        _ => (name, false),
    }
}

/// The seed of the stored lists.
pub const STORED_SEED: u64 = 11;

/// The size of a list if no other is asked for. Only some lists grow with it.
pub fn usual_size(name: &str) -> usize {
    match plain_name(name).0 {
        "damaged" => 1_500,
        "full" => 10,
        "tight" => 40,
        "large" => 5,
        "mix" => 1_800,
        "header" => 12,
        DIGITS => 1_000,
        _ => 1,
    }
}

/// Makes the list of a name. The size counts rows for `damaged`, `mix` and `digits`, tables for `full`, `tight`
/// and `header`, and rounds for `large`; the other lists have one size.
pub fn make(name: &str, seed: u64, size: usize) -> Option<Vec<u8>> {
    let (name, headed) = plain_name(name);
    let salt = NAMES.iter().chain([&DIGITS]).position(|&known| known == name)? as u64;
    let seed = seed.wrapping_mul(1_000).wrapping_add(salt);
    let mut random = Random::new(seed);
    // Headers have a sequence of their own, so that the rows between the openings stay as they are without.
    let headers = headed.then(|| Random::new(seed.wrapping_add(500)));
    let mut list = List { bytes: Vec::new(), headers };
    match name {
        "cases" => cases(&mut list),
        "edges" => edges(&mut list),
        "damaged" => damaged(&mut list, &mut random, size),
        "full" => full(&mut list, &mut random, size),
        "tight" => tight(&mut list, &mut random, size),
        "long" => long(&mut list, &mut random),
        "large" => large(&mut list, &mut random, size),
        "school" => school(&mut list, &mut random),
        "mix" => mix(&mut list, &mut random, size),
        "header" => header(&mut list, &mut random, size),
        DIGITS => digits(&mut list, &mut random, size),
        _ => return None,
    }
    Some(list.bytes)
}

/// Rows under construction.
struct List {
    bytes: Vec<u8>,
    /// Decides about the headers of openings. Without it no opening has one.
    headers: Option<Random>,
}

impl List {
    /// A row with its proper end.
    fn row(&mut self, text: &str) {
        self.bytes.extend_from_slice(text.as_bytes());
        self.bytes.extend_from_slice(b"\r\n");
    }

    /// Bytes just as they are.
    fn raw(&mut self, bytes: &[u8]) {
        self.bytes.extend_from_slice(bytes);
    }

    /// An opening that succeeds, with a header if this list has headers, now and then after one whose header
    /// is too long. Returns the slots of the header.
    fn open(&mut self, time_units: u64) -> u64 {
        let Some(random) = &mut self.headers else {
            self.open_with(time_units, "");
            return 0;
        };
        let too_long = random.chance(25).then(|| header_beyond(random, time_units));
        let header = header_within(random, time_units);
        let text = if header == 0 && random.chance(50) { String::new() } else { header.to_string() };
        if let Some(header) = too_long {
            self.open_with(time_units, &header.to_string());
        }
        self.open_with(time_units, &text);
        header
    }

    /// An opening with this text in the field of the header.
    fn open_with(&mut self, time_units: u64, header: &str) {
        self.row(&format!("open,{time_units},{header},,,,"));
    }

    /// In a list with headers, with a chance of so many in a hundred: an opening whose header field may be no
    /// number.
    fn maybe_broken_opening(&mut self, time_units: u64, percent: u64) {
        let Some(random) = &mut self.headers else { return };
        if !random.chance(percent) {
            return;
        }
        let field = if random.chance(50) {
            random.pick(&NUMBERS).as_bytes().to_vec()
        } else {
            let mut field = header_within(random, time_units).to_string().into_bytes();
            wound(&mut field, random);
            field
        };
        let row = [format!("open,{time_units},").as_bytes(), &field, b",,,,\r\n"].concat();
        self.raw(&row);
    }

    fn offer(&mut self, numbers: [u64; 6]) {
        self.row(&offer_text(numbers));
    }

    /// Several calls with blanks between them, each a row that may lack the empty fields at its end.
    fn calls(&mut self, text: &str) {
        for call in text.split_whitespace() {
            let missing = 6 - call.matches(',').count();
            self.row(&format!("{call}{}", ",".repeat(missing)));
        }
    }

    fn withdraw(&mut self, stream: u64) {
        self.row(&format!("withdraw,{stream},,,,,"));
    }

    fn beacons(&mut self, count: usize) {
        for _ in 0..count {
            self.row("beacon,,,,,,");
        }
    }
}

fn offer_text(numbers: [u64; 6]) -> String {
    let [stream, kind, period, min, max, life] = numbers;
    format!("offer,{stream},{kind},{period},{min},{max},{life}")
}

fn slots(time_units: u64) -> u64 {
    1_024 * time_units
}

/// A header that an interval of so many time units has room for.
fn header_within(random: &mut Random, time_units: u64) -> u64 {
    let all = slots(time_units);
    match random.between(0, 99) {
        0..=14 => 0,
        15..=49 => random.between(1, all / 64),
        50..=74 => random.between(1, all / 4),
        75..=92 => random.between(1, all - 1),
        93..=96 => all / random.between(2, 16) - random.between(0, 1),
        _ => all - 1,
    }
}

/// A header that is not below the slots of the interval.
fn header_beyond(random: &mut Random, time_units: u64) -> u64 {
    let all = slots(time_units);
    *random.pick(&[all, all, all + 1, 2 * all, 1_024_001, 2_147_483_648, 4_294_967_294, 4_294_967_295])
}

/// The worked cases.
fn cases(list: &mut List) {
    let first_three: [[u64; 6]; 3] = [[5, 1, 2, 100, 300, 4], [7, 2, 2, 600, 1_000, 4], [9, 3, 1, 300, 0, 1]];
    // Streams, a transfer, and plans until all of them are gone.
    list.open(1);
    first_three.iter().for_each(|&offer| list.offer(offer));
    list.beacons(6);
    // One slot decides whether a further transfer fits.
    list.open(1);
    first_three.iter().for_each(|&offer| list.offer(offer));
    list.offer([11, 3, 2, 749, 0, 2]);
    list.offer([11, 3, 2, 748, 0, 2]);
    list.beacons(3);
    // A departure does not bring back time that has passed.
    list.open(1);
    list.offer([1, 2, 2, 1_024, 1_024, 2]);
    list.offer([2, 2, 2, 1_024, 1_024, 2]);
    list.beacons(1);
    list.withdraw(1);
    list.offer([3, 2, 1, 1, 1, 1]);
    list.beacons(2);
    // Halves of an interval, filled to the brim.
    list.open(1);
    list.offer([1, 1, 2, 512, 512, 3]);
    list.offer([2, 1, 2, 1, 1, 3]);
    list.beacons(1);
    // Thirds.
    list.offer([3, 1, 3, 1, 1, 1]);
    list.open(3);
    list.offer([3, 1, 3, 1, 1, 1]);
    list.beacons(2);
    // Lives that are made of full periods, and one that is not.
    list.open(1);
    list.offer([4, 2, 2, 1, 1, 3]);
    list.offer([4, 2, 2, 1, 1, 4]);
    list.beacons(5);
    // An empty table has an empty plan.
    list.open(1);
    list.beacons(1);
}

/// Texts for a number field, good and bad.
const NUMBERS: [&str; 49] = [
    "",
    "0",
    "1",
    "2",
    "3",
    "4",
    "5",
    "15",
    "16",
    "17",
    "254",
    "255",
    "256",
    "511",
    "512",
    "513",
    "999",
    "1000",
    "1001",
    "1023",
    "1024",
    "1025",
    "65534",
    "65535",
    "65536",
    "4294967294",
    "4294967295",
    "4294967296",
    "9999999999",
    "10000000000",
    "99999999999",
    "00",
    "007",
    "0000000001",
    "00000000001",
    "0000065535",
    "0000000000",
    " 1",
    "1 ",
    "+1",
    "-1",
    "-0",
    "1.0",
    "1e1",
    "0x1",
    "\"1\"",
    "\u{ff11}",
    "one",
    "\t1",
];

/// Rows that are no call, whatever came before them.
const OTHER_FORMS: [&str; 48] = [
    "",
    ",",
    ",,,,,,",
    ",,,,,",
    ",,,,,,,",
    "beacon",
    "beacon,",
    "beacon,,,,,",
    "beacon,,,,,,,",
    "beacon,,,,,,0",
    "beacon,0,,,,,",
    "beacon,,,,0,,",
    "Beacon,,,,,,",
    "BEACON,,,,,,",
    " beacon,,,,,,",
    "beacon ,,,,,,",
    "beacon,,,,,, ",
    "beacons,,,,,,",
    "beaco,,,,,,",
    "\"beacon\",,,,,,",
    "beacon,\"\",,,,,",
    "beacon;;;;;;",
    "open,,,,,,",
    "open,1",
    "open,1,,,,",
    "open,1,,,,,,",
    "open,1,,,,,0",
    "open,1,,1,,,",
    "Open,1,,,,,",
    "open,\"1\",,,,,",
    "open,1,\"\",,,,",
    ",open,1,,,,",
    "withdraw,,,,,,",
    "withdraw,5,,,,",
    "withdraw,5,,,,,,",
    "withdraw,5,1,,,,",
    "withdraw,5,,,,,4",
    "Withdraw,5,,,,,",
    "offer,5,1,2,100,300",
    "offer,5,1,2,100,300,4,",
    "offer,5,1,2,100,300,4,4",
    "offer,5,1,2,100,,4",
    "offer,5,3,2,100,,2",
    "offer,,,,,,",
    "offers,5,1,2,100,300,4",
    "enquire,5,,,,,",
    "row,stream,job,start,length,answer",
    "slot,5,0,0,100,",
];

/// Every limit, from both sides, and every way we could think of to get a row wrong.
fn edges(list: &mut List) {
    // Before there is a table.
    list.beacons(1);
    list.row("offer,5,1,2,100,300,4");
    list.row("offer,0000000005,9,9,9,9,9");
    list.row("offer,4294967295,0,0,0,0,0");
    list.row("withdraw,5,,,,,");
    list.row("withdraw,0,,,,,");
    for text in OTHER_FORMS {
        list.row(text);
    }
    // Openings that come to nothing leave things as they were.
    for text in ["0", "1001", "4294967295", "0000000000", "4294967296", "00000000001"] {
        list.row(&format!("open,{text},,,,,"));
        list.beacons(1);
    }
    list.open(1);
    list.offer([5, 1, 2, 100, 300, 40]);
    for text in NUMBERS {
        list.row(&format!("open,{text},,,,,"));
        list.row("withdraw,5,,,,,");
        list.offer([5, 1, 2, 100, 300, 40]);
    }
    list.open(1);
    list.offer([5, 1, 2, 100, 300, 40]);
    list.open(0);
    list.open(1_001);
    list.beacons(1);
    for text in OTHER_FORMS {
        list.row(text);
    }
    list.beacons(1);
    // Each text in each field of an offer of each kind.
    for (time_units, bases) in [
        (
            1,
            [
                ["9", "1", "2", "1", "512", "4"],
                ["9", "2", "5", "1", "1024", "255"],
                ["9", "3", "4", "16", "0", "4"],
            ],
        ),
        (
            1_000,
            [
                ["9", "1", "16", "2", "513", "5"],
                ["9", "2", "255", "2", "999", "255"],
                ["9", "3", "3", "1", "0", "3"],
            ],
        ),
    ] {
        list.open(time_units);
        for base in bases {
            for field in 0..base.len() {
                for text in NUMBERS {
                    let mut texts = base;
                    texts[field] = text;
                    list.row(&format!("offer,{}", texts.join(",")));
                    list.row(&format!("withdraw,{},,,,,", texts[0]));
                }
            }
        }
    }
    // Parts of an interval, those that divide it and those that do not.
    for time_units in [1, 3, 5, 7, 9, 11, 13, 15, 63, 143, 1_000] {
        list.open(time_units);
        for parts in 0..=18 {
            let largest = slots(time_units) / parts.max(1);
            for max in [largest, largest + 1] {
                list.offer([parts + 1, 1, parts, 1, max, 1]);
                list.withdraw(parts + 1);
            }
            list.offer([parts + 1, 1, parts, largest, largest, 65_535]);
            list.withdraw(parts + 1);
        }
    }
    // Maximum and minimum the wrong way round, periods of many intervals, lives that do not divide.
    list.open(2);
    for offer in [
        [1, 1, 4, 100, 99, 1],
        [1, 1, 4, 100, 100, 1],
        [2, 2, 3, 100, 99, 3],
        [2, 2, 3, 6_144, 6_144, 3],
        [2, 2, 3, 1, 6_144, 3],
        [3, 2, 3, 1, 6_145, 3],
        [3, 2, 3, 1, 6_144, 65_535],
        [4, 2, 4, 1, 4, 65_535],
        [4, 2, 4, 1, 4, 65_532],
        [5, 2, 255, 1, 522_240, 65_535],
        [6, 2, 255, 1, 522_241, 65_535],
        [6, 2, 255, 1, 522_240, 65_280],
        [7, 3, 5, 1, 0, 4],
        [7, 3, 5, 1, 0, 6],
        [7, 3, 5, 1, 1, 5],
        [7, 3, 5, 0, 0, 5],
        [7, 3, 5, 1, 0, 5],
        [8, 3, 65_535, 4_294_967_295, 0, 65_535],
        [8, 3, 65_536, 1, 0, 65_536],
    ] {
        list.offer(offer);
    }
    list.beacons(2);
    // More than one thing wrong: the first in order counts.
    list.offer([0, 9, 0, 0, 0, 0]);
    list.offer([1, 9, 0, 0, 0, 0]);
    list.offer([65_536, 1, 2, 1, 1, 1]);
    list.offer([30, 0, 0, 0, 0, 0]);
    list.offer([30, 4, 0, 0, 0, 0]);
    list.offer([30, 1, 1, 0, 0, 0]);
    list.offer([30, 1, 2, 0, 0, 0]);
    list.offer([30, 1, 2, 1_024, 1_024, 0]);
    list.offer([30, 1, 2, 1_024, 1_024, 1]);
    list.offer([30, 2, 0, 0, 0, 0]);
    list.offer([30, 2, 2, 0, 0, 1]);
    list.offer([30, 2, 2, 4_096, 4_096, 1]);
    list.offer([30, 2, 2, 4_096, 4_096, 2]);
    list.offer([30, 3, 0, 0, 1, 1]);
    list.offer([30, 3, 1, 0, 1, 0]);
    list.offer([30, 3, 1, 4_294_967_295, 0, 2]);
    list.offer([30, 3, 1, 4_294_967_295, 0, 1]);
    list.withdraw(30);
    list.withdraw(0);
    list.withdraw(65_536);
    list.withdraw(4_294_967_295);
    // Rows of 63 to 71 bytes, all digits: up to 64 they are calls.
    list.open(1);
    for last in 2..=10 {
        let widths = [10, 10, 10, 10, 10, last];
        let text: Vec<String> = [u64::from(last as u32), 3, 2, 5, 0, 2]
            .iter()
            .zip(widths)
            .map(|(n, w)| format!("{n:0w$}"))
            .collect();
        list.row(&format!("offer,{}", text.join(",")));
    }
    list.row(&"x".repeat(64));
    list.row(&"x".repeat(65));
    list.row(&"1".repeat(5_000));
    list.row(&",".repeat(64));
    list.row(&format!("beacon,,,,,,{}", " ".repeat(52)));
    list.row(&format!("beacon,,,,,,{}", " ".repeat(53)));
    // Ends of rows.
    for raw in [
        &b"beacon,,,,,,\nbeacon,,,,,,\r\n"[..],
        b"beacon,,,,,,\rbeacon,,,,,,\r\n",
        b"beacon,,,,,,\r\r\n",
        b"beacon,,,,,,\r\r\r\n",
        b"beacon,,,,,,\n\r\n",
        b"\r\r\n",
        b"\n\r\n",
        b"\r\n",
        b"\n\n\n\r\n",
        b"\rbeacon,,,,,,\r\n",
        b"\nbeacon,,,,,,\r\n",
        b"bea\rcon,,,,,,\r\n",
        b"bea\ncon,,,,,,\r\n",
        b"withdraw,1\n,,,,,\r\n",
        b"withdraw,1\r,,,,,\r\n",
        b"beacon,\0,,,,,\r\n",
        b"\0\r\n",
        b"\xef\xbb\xbfbeacon,,,,,,\r\n",
        b"beacon,,,,,,\x1a\r\n",
    ] {
        list.raw(raw);
    }
    // Sixty-four bytes and then a CR too many, and a last row without its end.
    list.raw(b"offer,0000000020,0000000003,0000000002,0000000005,0000000000,002\r\r\n");
    list.beacons(1);
    list.raw(b"offer,0000000020,0000000003,0000000002,0000000005,0000000000,002");
}

const SPOILERS: &[u8] = b"\r\n\r\n,,,\"' 0123456789+-.eEabcofnwx\0\x7f\x80\xc3\xff;\t";

/// Rows with something broken in them, between rows that are whole. The list ends in a lone CR.
fn damaged(list: &mut List, random: &mut Random, rows: usize) {
    for done in 0..rows {
        if done % 100 == 40 {
            list.open(*random.pick(&[1, 2, 3, 8]));
        }
        list.maybe_broken_opening(2, 4);
        let mut row = sensible_row(random, 2, &Habits::QUIET).into_bytes();
        row.extend_from_slice(b"\r\n");
        let wounds = if random.chance(45) { 0 } else { random.between(1, 3) };
        for _ in 0..wounds {
            wound(&mut row, random);
        }
        list.raw(&row);
        if random.chance(1) {
            let noise: Vec<u8> = (0..random.between(0, 90)).map(|_| random.bits() as u8).collect();
            list.raw(&noise);
        }
    }
    list.raw(b"\r\n");
    list.open(1);
    list.raw(b"beacon,,,,,,\r");
}

fn wound(row: &mut Vec<u8>, random: &mut Random) {
    let at = random.between(0, row.len() as u64) as usize;
    match random.between(0, 9) {
        0..=2 => row.insert(at, *random.pick(SPOILERS)),
        3..=5 if at < row.len() => row[at] = *random.pick(SPOILERS),
        6..=7 if at < row.len() => {
            row.remove(at);
        }
        8 => {
            let again = row[at..].to_vec();
            row.extend_from_slice(&again);
        }
        _ => {
            let filler = vec![*random.pick(SPOILERS); random.between(1, 70) as usize];
            row.splice(at..at, filler);
        }
    }
}

/// Tables with every place taken.
fn full(list: &mut List, random: &mut Random, tables: usize) {
    // Thirty-two streams of sixteen jobs each, and every refusal there is for a thirty-third.
    list.open(1);
    for stream in 1..=32 {
        list.offer([stream, 1, 16, 1 + stream % 3 / 2, 64, 3]);
    }
    for offer in [
        [33, 1, 16, 1, 1, 1],
        [33, 2, 1, 1_024, 1_024, 1],
        [33, 3, 1, 4_000_000_000, 0, 1],
        [33, 2, 2, 1, 1, 3],
        [33, 2, 2, 0, 1, 2],
        [33, 2, 256, 1, 1, 256],
        [33, 7, 1, 1, 1, 1],
        [32, 7, 1, 1, 1, 1],
        [0, 7, 1, 1, 1, 1],
    ] {
        list.offer(offer);
    }
    list.beacons(1);
    list.withdraw(17);
    list.withdraw(17);
    list.offer([33, 3, 1, 4_000_000_000, 0, 1]);
    list.offer([33, 3, 1, 400, 0, 1]);
    list.offer([34, 3, 1, 1, 0, 1]);
    list.beacons(1);
    list.offer([17, 3, 1, 1, 0, 1]);
    list.offer([34, 3, 1, 1, 0, 1]);
    list.beacons(2);
    // Thirty-two transfers that end one after the other; each free place is taken at once.
    list.open(2);
    for stream in 1..=33 {
        list.offer([stream, 3, stream, 60 * stream, 0, stream]);
    }
    for round in 0..34 {
        list.beacons(1);
        list.offer([round + 1, 3, 33, 1_500, 0, 33]);
        list.offer([round + 2, 3, 33, 1, 0, 33]);
    }
    // Random full tables.
    for _ in 0..tables {
        let time_units = *random.pick(&[1, 2, 3, 9, 15, 45, 90, 630, 945]);
        list.open(time_units);
        let mut streams: Vec<u64> = (1..=40).collect();
        random.shuffle(&mut streams);
        for &stream in &streams[..36] {
            let offer = sensible_offer(random, stream, time_units, &Habits::SMALL);
            list.offer(offer);
        }
        for _ in 0..3 {
            list.beacons(1);
            for _ in 0..random.between(1, 5) {
                let stream = *random.pick(&streams);
                let offer = sensible_offer(random, stream, time_units, &Habits::SMALL);
                list.offer(offer);
            }
            if random.chance(50) {
                list.withdraw(*random.pick(&streams));
            }
        }
    }
}

/// A list that knows the table it leads to.
struct Followed<'a> {
    list: &'a mut List,
    table: Table,
    time_units: u64,
}

impl Followed<'_> {
    /// An opening with any header, which may be refused.
    fn open(&mut self, time_units: u64, header: u64) {
        self.list.open_with(time_units, &header.to_string());
        if let Ok(table) = Table::open(time_units as u32, header as u32) {
            self.table = table;
            self.time_units = time_units;
        }
    }

    fn offer(&mut self, numbers: [u64; 6]) {
        self.list.offer(numbers);
        let _ = self.table.offer(&plain_offer(numbers));
    }

    fn withdraw(&mut self, stream: u64) {
        self.list.withdraw(stream);
        let _ = self.table.withdraw(stream as u32);
    }

    fn beacon(&mut self) {
        self.list.beacons(1);
        self.table.beacon(&mut vec![0; crate::plan::PLAN_WORDS]);
    }

    /// The largest value the minimum of this request may have by its range.
    fn largest_min(&self, shape: [u64; 6]) -> u64 {
        let all = slots(self.time_units);
        match shape[1] {
            1 => all / shape[2],
            2 => all * shape[2],
            _ => u64::from(u32::MAX),
        }
    }

    /// The request with another minimum, and a maximum that goes with it.
    fn with_min(&self, shape: [u64; 6], min: u64) -> [u64; 6] {
        let [stream, kind, period, _, max, life] = shape;
        [stream, kind, period, min, if kind == 3 { 0 } else { max.max(min) }, life]
    }

    /// The largest minimum with which there is time for the request; 0 if there is none.
    fn limit(&self, shape: [u64; 6]) -> u64 {
        let (mut fits, mut too_much) = (0, self.largest_min(shape) + 1);
        while too_much - fits > 1 {
            let middle = fits + (too_much - fits) / 2;
            if self.table.clone().offer(&plain_offer(self.with_min(shape, middle))).is_ok() {
                fits = middle;
            } else {
                too_much = middle;
            }
        }
        fits
    }
}

fn plain_offer(numbers: [u64; 6]) -> Offer {
    let [stream, kind, period, min, max, life] = numbers.map(|number| number as u32);
    Offer { stream, kind, period, min, max, life }
}

/// Offers that take the last free slot, each after one that wants a slot more.
fn tight(list: &mut List, random: &mut Random, tables: usize) {
    for _ in 0..tables {
        let time_units = *random.pick(&[1, 1, 1, 2, 3, 6, 15, 100, 1_000]);
        let header = list.open(time_units);
        let Ok(table) = Table::open(time_units as u32, header as u32) else { continue };
        let mut followed = Followed { list: &mut *list, table, time_units };
        let calm = Habits { rash: 0, ..Habits::BOLD };
        for _ in 0..random.between(3, 7) {
            for _ in 0..random.between(0, 3) {
                let stream = random.between(1, 12);
                followed.offer(sensible_offer(random, stream, time_units, &calm));
            }
            if random.chance(40) {
                followed.withdraw(random.between(1, 16));
            }
            let stream = random.between(13, 20);
            let shape = sensible_offer(random, stream, time_units, &calm);
            let limit = followed.limit(shape);
            followed.offer(followed.with_min(shape, limit + 1));
            if random.chance(60) {
                followed.offer(followed.with_min(shape, limit));
                followed.offer([21, 3, shape[5], 1, 0, shape[5]]);
            }
            for _ in 0..random.between(1, 3) {
                followed.beacon();
            }
        }
    }
}

/// Lives and deadlines up to their largest values.
fn long(list: &mut List, random: &mut Random) {
    // A single transfer takes all there is up to the last deadline.
    list.open(1);
    list.offer([1, 3, 65_535, 67_107_841, 0, 65_535]);
    list.offer([1, 3, 65_535, 67_107_840, 0, 65_535]);
    list.offer([2, 3, 1, 1, 0, 1]);
    list.offer([2, 2, 1, 1, 1, 65_535]);
    list.beacons(3);
    list.withdraw(1);
    list.offer([1, 3, 65_535, 67_107_840, 0, 65_535]);
    list.beacons(1);
    // Thirty-two bits of slots.
    list.open(1_000);
    list.offer([1, 3, 4_194, 4_294_967_295, 0, 4_194]);
    list.offer([1, 3, 4_195, 4_294_967_295, 0, 4_195]);
    list.offer([2, 3, 65_535, 4_294_967_295, 0, 65_535]);
    list.offer([3, 2, 255, 261_120_000, 261_120_000, 65_535]);
    list.offer([3, 2, 255, 130_560_000, 261_120_000, 65_535]);
    list.offer([3, 2, 255, 100_000_000, 261_120_000, 65_535]);
    list.offer([4, 1, 16, 1_000, 64_000, 65_535]);
    list.offer([5, 3, 65_535, 4_294_967_295, 0, 65_535]);
    list.offer([6, 3, 65_535, 4_294_967_295, 0, 65_535]);
    list.beacons(4);
    for _ in 0..12 {
        let deadline = random.between(40_000, 65_535);
        list.offer([
            random.between(7, 20),
            3,
            deadline,
            random.between(3_000_000_000, 4_294_967_295),
            0,
            deadline,
        ]);
    }
    list.beacons(4);
    // Everything with the longest life.
    list.open(1);
    for (stream, period) in [(1, 1), (2, 255), (3, 17), (4, 257), (5, 3), (6, 5), (7, 15), (8, 51), (9, 85)] {
        list.offer([stream, 2, period, 40 * period, 80 * period, 65_535]);
    }
    for (stream, parts) in [(11, 2), (12, 4), (13, 8), (14, 16)] {
        list.offer([stream, 1, parts, 5, 20, 65_535]);
    }
    for (stream, deadline) in [(21, 65_535), (22, 65_534), (23, 32_768), (24, 1_000), (25, 256), (26, 255)] {
        list.offer([stream, 3, deadline, 20 * deadline, 0, deadline]);
    }
    list.beacons(20);
    for stream in [1, 3, 5, 7, 11, 13] {
        list.withdraw(stream);
        list.offer([stream, 3, 60_000, 3_000_000, 0, 60_000]);
        list.beacons(1);
    }
    // Full periods of 255 intervals, and a stream that outlives them.
    list.open(2);
    list.offer([1, 2, 255, 200_000, 300_000, 765]);
    list.offer([2, 1, 2, 10, 1_024, 300]);
    list.offer([3, 3, 256, 100_000, 0, 256]);
    list.beacons(260);
    list.offer([4, 3, 250, 222_849, 0, 250]);
    list.offer([5, 2, 5, 10_240, 10_240, 50]);
    list.beacons(40);
    list.offer([6, 2, 255, 1, 522_240, 65_535]);
    list.beacons(250);
}

/// Intervals of many time units, numbers of six digits and more.
fn large(list: &mut List, random: &mut Random, rounds: usize) {
    for round in 0..rounds {
        for time_units in [1_000, 999, 990, 945, 910, 880, 720] {
            let all = slots(time_units);
            list.open(time_units);
            list.offer([1, 2, 255, 255 * all, 255 * all + 1, 255]);
            list.offer([1, 2, 255, 254 * all, 255 * all, 255]);
            list.offer([2, 3, 3, all + 1, 0, 3]);
            list.offer([2, 3, 3, all, 0, 3]);
            list.offer([3, 1, 2, 1, 1, 1]);
            list.withdraw(1);
            let habits = if round % 2 == 0 { &Habits::SMALL } else { &Habits::BOLD };
            for _ in 0..14 {
                let stream = random.between(1, 20);
                let offer = sensible_offer(random, stream, time_units, habits);
                list.offer(offer);
            }
            list.beacons(2);
            list.withdraw(random.between(1, 20));
            list.beacons(1);
        }
    }
}

/// A day at school: six lessons, thirty readers, and books lent out before each bell.
///
/// Every lesson has a talk (kind 1) and a picture (kind 2) from the front. Some readers follow with streams of
/// their own, which end some intervals before the bell. Then every reader wants a book, to be through by the
/// bell at the latest.
fn school(list: &mut List, random: &mut Random) {
    const LESSON: u64 = 14;
    const LENDING: u64 = 4;
    list.open(100);
    let all = slots(100);
    for lesson in 1..=6 {
        let talk = lesson;
        let picture = 10 + lesson;
        list.offer([talk, 1, *random.pick(&[2, 4, 8]), 900, 2_500, LESSON]);
        let period = *random.pick(&[1, 2, 7]);
        list.offer([picture, 2, period, period * all / 10, period * all / 4, LESSON]);
        let mut readers: Vec<u64> = (101..=130).collect();
        random.shuffle(&mut readers);
        let (following, others) = readers.split_at(8);
        for (place, &reader) in following.iter().enumerate() {
            if place < 3 {
                list.offer([
                    reader,
                    1,
                    4,
                    random.between(200, 900),
                    random.between(900, 3_000),
                    LESSON - LENDING,
                ]);
            } else {
                let period = *random.pick(&[1, 2, 5]);
                let min = period * random.between(500, 4_000);
                list.offer([reader, 2, period, min, min * random.between(1, 3), LESSON - LENDING]);
            }
        }
        for passed in 0..LESSON - LENDING {
            list.beacons(1);
            if passed == 4 {
                // One reader goes home, another comes and asks for a book on the spot.
                list.withdraw(following[0]);
                list.offer([following[0], 3, 2, random.between(5_000, 90_000), 0, 2]);
            }
        }
        // The lives of the readers' streams are over; now for the books.
        for &reader in others.iter().chain(following) {
            let deadline = random.between(1, LENDING);
            list.offer([reader, 3, deadline, random.between(1_500, 24_000), 0, deadline]);
        }
        for _ in 0..LENDING {
            list.beacons(1);
            let reader = *random.pick(others);
            list.withdraw(reader);
            list.offer([reader, 3, 1, random.between(1_000, 30_000), 0, 1]);
        }
        // A break of two intervals. Talk and picture ended with the bell, so it is too late to withdraw them.
        list.beacons(2);
        list.withdraw(talk);
        list.withdraw(picture);
    }
}

/// How random offers are made.
struct Habits {
    /// The share of an interval asked for is one part in this many, more or less.
    thin: u64,
    /// Chance in a hundred that a limit of the rules is used instead of something sensible.
    rash: u64,
    /// Largest number of periods in a life.
    lives: u64,
    /// Largest number of intervals in a period.
    periods: u64,
}

impl Habits {
    const QUIET: Habits = Habits { thin: 12, rash: 4, lives: 3, periods: 3 };
    const SMALL: Habits = Habits { thin: 60, rash: 0, lives: 4, periods: 4 };
    const BOLD: Habits = Habits { thin: 6, rash: 3, lives: 5, periods: 6 };
}

const LIMITS: [u64; 22] = [
    0,
    1,
    2,
    3,
    16,
    17,
    255,
    256,
    1_023,
    1_024,
    1_025,
    4_096,
    65_534,
    65_535,
    65_536,
    1_024_000,
    261_120_000,
    261_120_001,
    4_294_967_294,
    4_294_967_295,
    4_294_967_296,
    99_999_999_999,
];

/// An offer with fields in range, unless rashness strikes; whether there is time for it is another matter.
fn sensible_offer(random: &mut Random, stream: u64, time_units: u64, habits: &Habits) -> [u64; 6] {
    let all = slots(time_units);
    let thin = random.between(1, 2 * habits.thin);
    let mut offer = match random.between(1, 3) {
        1 => {
            let parts: Vec<u64> = (2..=16).filter(|&m| all.is_multiple_of(m)).collect();
            let m = *random.pick(&parts);
            let min = random.between(1, (all / m / thin).max(1));
            [
                stream,
                1,
                m,
                min,
                random.between(min, all / m),
                random.between(1, habits.lives * habits.periods),
            ]
        }
        2 => {
            let period = random.between(1, habits.periods);
            let min = random.between(1, (period * all / thin).max(1));
            let max = random.between(min, period * all);
            [stream, 2, period, min, max, period * random.between(1, habits.lives)]
        }
        _ => {
            let deadline = random.between(1, habits.lives * habits.periods);
            [stream, 3, deadline, random.between(1, (deadline * all / thin).max(1)), 0, deadline]
        }
    };
    if random.chance(habits.rash) {
        let field = random.between(0, 5) as usize;
        offer[field] = *random.pick(&LIMITS);
    }
    offer
}

/// A random row without its end: mostly offers and beacons, on the assumption of so many time units.
fn sensible_row(random: &mut Random, time_units: u64, habits: &Habits) -> String {
    match random.between(0, 99) {
        0..=54 => {
            let stream = if random.chance(97) { random.between(1, 45) } else { random.between(1, 65_535) };
            offer_text(sensible_offer(random, stream, time_units, habits))
        }
        55..=69 => format!("withdraw,{},,,,,", random.between(1, 45)),
        _ => "beacon,,,,,,".to_string(),
    }
}

/// A bit of everything.
fn mix(list: &mut List, random: &mut Random, rows: usize) {
    let mut time_units = 1;
    for done in 0..rows {
        if done > 2 && (done == 3 || random.chance(1)) {
            time_units = *random.pick(&[1, 1, 1, 2, 3, 4, 5, 6, 9, 15, 100, 105, 990, 1_000]);
            list.open(time_units);
        }
        if random.chance(1) {
            let text = *random.pick(&["0", "1001", "", "00001", "4294967296", "1000 "]);
            list.row(&format!("open,{text},,,,,"));
        }
        list.maybe_broken_opening(time_units, 1);
        let habits = if random.chance(70) { &Habits::QUIET } else { &Habits::BOLD };
        let mut row = sensible_row(random, time_units, habits).into_bytes();
        row.extend_from_slice(b"\r\n");
        if random.chance(2) {
            wound(&mut row, random);
        }
        list.raw(&row);
    }
    list.raw(b"\r\nbeacon,,,,,,");
}

/// Calls for streams of 1 to 10 digits. A stream is printed as it was read, also one that is out of range, and
/// no other printed number can have more than seven digits.
fn digits(list: &mut List, random: &mut Random, rows: usize) {
    let mut time_units = 1;
    for done in 0..rows {
        if done % 100 == 40 {
            time_units = *random.pick(&[1, 30, 1_000]);
            list.open(time_units);
        }
        let stream = number_of_any_width(random);
        match random.between(0, 19) {
            0..=11 => list.offer(sensible_offer(random, stream, time_units, &Habits::SMALL)),
            12..=18 => list.withdraw(stream),
            _ => list.beacons(1),
        }
    }
}

/// A number of 1 to 10 digits, each width as often as any other. More than half of them end in zeros.
fn number_of_any_width(random: &mut Random) -> u64 {
    let width = random.between(1, 10) as u32;
    let least = if width == 1 { 0 } else { 10u64.pow(width - 1) };
    let largest = (10u64.pow(width) - 1).min(u64::from(u32::MAX));
    let number = match random.between(0, 3) {
        0 => least,
        1 => largest,
        _ => random.between(least, largest),
    };
    let zeros = random.word(1, width - 1);
    if random.chance(50) { number } else { number - number % 10u64.pow(zeros) }
}

/// Beacon headers: cases worked by hand, the limits, and tables whose requests or headers sit at the edge of
/// the header test.
fn header(list: &mut List, random: &mut Random, tables: usize) {
    header_cases(list);
    header_edges(list);
    header_tables(list, random, tables);
}

/// The cases of `tests/header.rs`.
fn header_cases(list: &mut List) {
    // The first worked case behind a header of 50 slots.
    list.calls("open,1,50 offer,5,1,2,100,300,4 offer,7,2,2,600,1000,4 offer,9,3,1,300,0,1 beacon beacon");
    // The header test alone decides, at one end.
    list.calls(
        "open,1,500 offer,1,1,2,13,13,1 offer,1,1,2,12,12,1 offer,2,1,2,1,1,1
        offer,3,2,1,501,501,1 offer,3,2,1,500,500,1 offer,4,3,1,1,0,1 beacon beacon",
    );
    // At two ends, and at an end within the header.
    list.calls(
        "open,1,100 offer,1,1,4,100,100,1 offer,2,1,8,20,20,1
        offer,3,1,16,1,1,1 offer,3,1,8,9,9,1 offer,3,1,8,8,8,1 beacon",
    );
    // Extras that fail the test: kind 2 shares alone, for want of slots in part or to the full. Then extras of
    // 12, which just pass it, and of 13, which do not.
    list.calls(
        "open,1,400 offer,1,1,2,100,300,2 offer,2,2,1,100,500,1 beacon offer,2,2,1,100,300,1 beacon
        offer,1,1,2,100,112,1 offer,2,2,1,100,300,1 beacon
        offer,1,1,2,100,113,1 offer,2,2,1,100,300,1 beacon",
    );
    // The second end decides about extras of 50 and of 51. There is no kind 2.
    for max in [100, 101] {
        list.calls(&format!("open,1,100 offer,1,1,8,28,28,1 offer,2,1,4,50,{max},1 beacon"));
    }
}

/// The limits of a header, and every text in its field.
fn header_edges(list: &mut List) {
    list.open_with(1, "7");
    list.offer([5, 3, 200, 200_000, 0, 200]);
    for text in NUMBERS {
        // Where the opening succeeds, there is nothing in the plan; else the transfer goes on.
        list.open_with(1, text);
        list.beacons(1);
        list.offer([5, 3, 200, 200, 0, 200]);
    }
    // The time units are looked at first.
    for (time_units, headers) in [
        (0, ["", "0", "1", "4294967295", "4294967296"]),
        (1_001, ["", "0", "1025024", "4294967295", "x"]),
        (1, ["1022", "1023", "1024", "1025", "0000001023"]),
        (2, ["1024", "2047", "2048", "2049", "0000002048"]),
        (1_000, ["1024", "1023999", "1024000", "1024001", "4294967295"]),
    ] {
        for text in headers {
            list.open_with(time_units, text);
            list.beacons(1);
        }
    }
    // A single slot is left.
    list.open_with(1, "1023");
    list.offer([1, 1, 2, 1, 1, 1]);
    list.offer([1, 2, 1, 2, 2, 2]);
    list.offer([1, 2, 1, 1, 1_024, 2]);
    list.offer([2, 3, 2, 1, 0, 2]);
    list.beacons(1);
    list.withdraw(1);
    list.offer([2, 3, 2, 2, 0, 2]);
    list.offer([3, 3, 2, 1, 0, 2]);
    list.beacons(2);
    // The first end lies before, at and just behind the end of the header.
    for (parts, header) in [(2, 512), (4, 256), (16, 64)] {
        for header in [header + 1, header, header - 1, header - 2] {
            list.open_with(1, &header.to_string());
            list.offer([1, 1, parts, 1, 64, 1]);
            list.offer([2, 1, parts, 1, 64, 1]);
            list.beacons(1);
        }
    }
    // The longest lives and deadlines.
    list.open_with(1, "24");
    list.offer([1, 3, 65_535, 65_535_001, 0, 65_535]);
    list.offer([1, 3, 65_535, 65_535_000, 0, 65_535]);
    list.offer([2, 3, 1, 1, 0, 1]);
    list.beacons(1);
    list.withdraw(1);
    list.offer([1, 1, 8, 105, 128, 65_535]);
    list.offer([1, 1, 8, 104, 128, 65_535]);
    list.offer([2, 2, 255, 42_841, 42_841, 65_535]);
    list.offer([2, 2, 255, 42_840, 261_120, 65_535]);
    list.beacons(1);
}

/// A kind 1 request with fields in range.
fn fraction(random: &mut Random, stream: u64, time_units: u64) -> [u64; 6] {
    let all = slots(time_units);
    let parts: Vec<u64> = (2..=16).filter(|&m| all.is_multiple_of(m)).collect();
    let m = *random.pick(&parts);
    let thin = random.between(2, 12);
    let min = random.between(1, (all / m / thin).max(1));
    let max = if random.chance(30) { min } else { random.between(min, all / m) };
    [stream, 1, m, min, max, random.between(1, 6)]
}

/// A kind 2 request that needs little of what a header leaves, and could take a little or much more.
fn modest_whole(random: &mut Random, stream: u64, time_units: u64, header: u64) -> [u64; 6] {
    let all = slots(time_units);
    let period = random.between(1, 3);
    let min = random.between(1, (period * all.saturating_sub(header) / 24).max(1));
    let max = if random.chance(50) { (2 * min).min(period * all) } else { random.between(min, period * all) };
    [stream, 2, period, min, max, period * random.between(1, 4)]
}

/// The longest header with which there is time for all of the requests; 0 if there is none.
fn longest_header(time_units: u64, requests: &[[u64; 6]]) -> u64 {
    let all_fit = |header: u64| {
        Table::open(time_units as u32, header as u32)
            .is_ok_and(|mut table| requests.iter().all(|&request| table.offer(&plain_offer(request)).is_ok()))
    };
    last_that_holds(0, slots(time_units), all_fit)
}

/// A number from `from` on, below `to`, that holds while the next one does not, found by halves: `from` is
/// taken to hold and `to` is not. Where what holds is all below some number, it is the last that holds.
pub fn last_that_holds(from: u64, to: u64, holds: impl Fn(u64) -> bool) -> u64 {
    let (mut last, mut beyond) = (from, to);
    while beyond - last > 1 {
        let middle = last + (beyond - last) / 2;
        if holds(middle) {
            last = middle;
        } else {
            beyond = middle;
        }
    }
    last
}

/// A maximum with which kind 1 has a part in the next sharing and has none with one slot more, if a search in
/// halves comes upon such a place.
fn sharing_edge(table: &Table, request: [u64; 6], largest: u64) -> Option<u64> {
    let [stream, kind, period, min, _, life] = request;
    let left_out = |max: u64| {
        let mut table = table.clone();
        table.offer(&plain_offer([stream, kind, period, min, max, life])).ok()?;
        Some(table.division().fractions_left_out)
    };
    if left_out(min)? || !left_out(largest)? {
        return None;
    }
    Some(last_that_holds(min, largest, |max| left_out(max) == Some(false)))
}

/// Tables with headers of every size. Kind 1 requests go to the edge of the header test and a slot beyond,
/// with their minimums and with their extras.
fn header_tables(list: &mut List, random: &mut Random, tables: usize) {
    list.open_with(1, "");
    let Ok(table) = Table::open(1, 0) else { return };
    let mut followed = Followed { list, table, time_units: 1 };
    let calm = Habits { rash: 0, ..Habits::BOLD };
    for _ in 0..tables {
        let time_units = *random.pick(&[1, 1, 1, 2, 3, 6, 15, 100, 1_000]);
        let mut wishes: Vec<[u64; 6]> =
            (1..=random.between(1, 4)).map(|stream| fraction(random, stream, time_units)).collect();
        if random.chance(50) {
            // Streams that want no extras leave the sharing to those that come later.
            wishes.iter_mut().for_each(|wish| wish[4] = wish[3]);
        }
        let longest = longest_header(time_units, &wishes);
        if random.chance(40) {
            followed.open(time_units, header_beyond(random, time_units));
        }
        let header = match random.between(0, 9) {
            0..=1 => longest,
            2..=3 => longest + 1,
            4..=6 => longest - random.between(0, longest / 8),
            _ => header_within(random, time_units),
        };
        followed.open(time_units, header);
        for wish in wishes {
            followed.offer(wish);
        }
        for stream in 11..=random.between(10, 13) {
            followed.offer(modest_whole(random, stream, time_units, header));
        }
        for stream in 14..=random.between(13, 15) {
            followed.offer(sensible_offer(random, stream, time_units, &calm));
        }
        for _ in 0..random.between(1, 3) {
            followed.at_the_sharing(random);
            followed.at_the_test(random);
            followed.beacon();
            if random.chance(50) {
                followed.beacon();
            }
            followed.withdraw(random.between(1, 24));
        }
    }
}

impl Followed<'_> {
    /// A kind 1 request that asks for a slot too much, and then one slot less.
    fn at_the_test(&mut self, random: &mut Random) {
        let stream = random.between(21, 24);
        let shape = fraction(random, stream, self.time_units);
        let limit = self.limit(shape);
        if limit < self.largest_min(shape) {
            self.offer(self.with_min(shape, limit + 1));
        }
        if limit > 0 && random.chance(70) {
            self.offer(self.with_min(shape, limit));
        }
    }

    /// A kind 1 request whose maximum is a slot too much for a part in the sharing, and at the next beacon one
    /// whose maximum is not.
    fn at_the_sharing(&mut self, random: &mut Random) {
        let [stream, kind, period, _, _, life] = fraction(random, 25, self.time_units);
        let request = [stream, kind, period, 1, 1, life];
        for beyond in [1, 0] {
            let Some(max) = sharing_edge(&self.table, request, self.largest_min(request)) else { return };
            self.offer([stream, kind, period, 1, max + beyond, life]);
            self.beacon();
            self.withdraw(stream);
        }
    }
}
