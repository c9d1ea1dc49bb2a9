//! The program on byte strings: where rows end, what counts as a call, and that nothing breaks it.

mod common;

use std::io::{self, Read, Write};
use std::process::{Command, Stdio};

use reference::lists;
use reference::random::Random;
use reference::rows::{Call, HEADER, push_number, read_number, run, run_bytes};

fn body(input: &[u8]) -> String {
    let output = String::from_utf8(run_bytes(input)).unwrap();
    output.strip_prefix(std::str::from_utf8(HEADER).unwrap()).unwrap().to_string()
}

/// Hands out at most so many bytes at a time.
struct Chunks<'a> {
    rest: &'a [u8],
    size: usize,
}

impl Read for Chunks<'_> {
    fn read(&mut self, buffer: &mut [u8]) -> io::Result<usize> {
        let count = self.size.min(buffer.len()).min(self.rest.len());
        buffer[..count].copy_from_slice(&self.rest[..count]);
        self.rest = &self.rest[count..];
        Ok(count)
    }
}

fn run_in_chunks(input: &[u8], size: usize) -> Vec<u8> {
    let mut output = Vec::new();
    run(Chunks { rest: input, size }, &mut output).unwrap();
    output
}

/// The real program, fed in pieces of one size.
fn run_program(input: &[u8], size: usize) -> Vec<u8> {
    let mut child = Command::new(env!("CARGO_BIN_EXE_shelf-reference"))
        .stdin(Stdio::piped())
        .stdout(Stdio::piped())
        .spawn()
        .unwrap();
    let mut stdin = child.stdin.take().unwrap();
    let mut stdout = child.stdout.take().unwrap();
    let reader = std::thread::spawn(move || {
        let mut output = Vec::new();
        stdout.read_to_end(&mut output).unwrap();
        output
    });
    for piece in input.chunks(size) {
        stdin.write_all(piece).unwrap();
    }
    drop(stdin);
    assert!(child.wait().unwrap().success());
    reader.join().unwrap()
}

#[test]
fn nothing_in_header_out() {
    assert_eq!(run_bytes(b""), HEADER);
    assert_eq!(HEADER, b"row,stream,job,start,length,answer\r\n");
    assert_eq!(run_program(b"", 1), HEADER);
}

#[test]
fn where_rows_end() {
    const OTHER: &str = "row,,,,,50\r\n";
    const OPENED: &str = "open,,,,,0\r\n";
    for (input, output) in [
        ("open,1,,,,,", OPENED.to_string()),
        ("open,1,,,,,\r\n", OPENED.to_string()),
        ("open,1,,,,,\r", OTHER.to_string()),
        ("open,1,,,,,\n", OTHER.to_string()),
        ("open,1,,,,,\n\n", OTHER.to_string()),
        ("open,1,,,,,\r\r\n", OTHER.to_string()),
        ("open,1,,,,,\r\r\r\n", OTHER.to_string()),
        ("open,1,,,,,\n\r\n", OTHER.to_string()),
        ("open,1,,,,,\r\n\r\n", format!("{OPENED}{OTHER}")),
        ("open,1,,,,,\r\n\r", format!("{OPENED}{OTHER}")),
        ("open,1,,,,,\r\n\n", format!("{OPENED}{OTHER}")),
        ("open,1,,,,,\r\n\nopen,1,,,,,", format!("{OPENED}{OTHER}")),
        ("open,1,,,,,\ropen,1,,,,,\r\n", OTHER.to_string()),
        ("open,1,,,,,\nopen,1,,,,,\r\n", OTHER.to_string()),
        ("open,1,,,,,\r\nopen,1,,,,,", format!("{OPENED}{OPENED}")),
        ("open,1,,,,,\r\r\nopen,1,,,,,\r\n", format!("{OTHER}{OPENED}")),
        ("\r\n", OTHER.to_string()),
        ("\r", OTHER.to_string()),
        ("\n", OTHER.to_string()),
        ("\r\r", OTHER.to_string()),
        ("\n\r", OTHER.to_string()),
        ("\r\r\n", OTHER.to_string()),
        ("\r\n\r\n", format!("{OTHER}{OTHER}")),
        ("\r\n\n\r\n\r", format!("{OTHER}{OTHER}{OTHER}")),
    ] {
        assert_eq!(body(input.as_bytes()), output, "{input:?}");
        for size in [1, 2, 3] {
            assert_eq!(run_in_chunks(input.as_bytes(), size), run_bytes(input.as_bytes()), "{input:?}");
        }
    }
}

#[test]
fn before_and_between_openings() {
    let input = "offer,0000000007,9,9,9,9,9\r\nwithdraw,4294967295,,,,,\r\nbeacon,,,,,,\r\noffer,1,,,,,\r\n\
        open,0,,,,,\r\nbeacon,,,,,,\r\nopen,1001,,,,,\r\nopen,1,,,,,\r\noffer,7,3,1,1,0,1\r\nopen,0,,,,,\r\n\
        open,4294967295,,,,,\r\nopen,4294967296,,,,,\r\nwithdraw,7,,,,,\r\nwithdraw,7,,,,,\r\n\
        offer,7,3,1,1,0,1\r\nopen,2,,,,,\r\nwithdraw,07,,,,,\r\nbeacon,,,,,,\r\noffer,0,1,1,1,1,1\r\n";
    let output = "offer,7,,,,51\r\nwithdraw,4294967295,,,,51\r\nbeacon,,,,,51\r\nrow,,,,,50\r\n\
        open,,,,,1\r\nbeacon,,,,,51\r\nopen,,,,,1\r\nopen,,,,,0\r\noffer,7,,,,0\r\nopen,,,,,1\r\n\
        open,,,,,1\r\nrow,,,,,50\r\nwithdraw,7,,,,0\r\nwithdraw,7,,,,20\r\n\
        offer,7,,,,0\r\nopen,,,,,0\r\nwithdraw,7,,,,20\r\nbeacon,,,,,0\r\noffer,0,,,,10\r\n";
    assert_eq!(body(input.as_bytes()), output);
}

#[test]
fn headers_of_openings() {
    for (row, answer) in [
        ("open,1,,,,,", "open,,,,,0"),
        ("open,1,0,,,,", "open,,,,,0"),
        ("open,1,1,,,,", "open,,,,,0"),
        ("open,1,1023,,,,", "open,,,,,0"),
        ("open,1,0000001023,,,,", "open,,,,,0"),
        ("open,0000000001,0000001023,,,,", "open,,,,,0"),
        ("open,1,1024,,,,", "open,,,,,61"),
        ("open,1,4294967295,,,,", "open,,,,,61"),
        ("open,2,1024,,,,", "open,,,,,0"),
        ("open,0,0,,,,", "open,,,,,1"),
        ("open,0,1024,,,,", "open,,,,,1"),
        ("open,1001,4294967295,,,,", "open,,,,,1"),
        ("open,1,4294967296,,,,", "row,,,,,50"),
        ("open,0,4294967296,,,,", "row,,,,,50"),
        ("open,1,00000000001,,,,", "row,,,,,50"),
        ("open,1,x,,,,", "row,,,,,50"),
        ("open,1, ,,,,", "row,,,,,50"),
        ("open,1,-1,,,,", "row,,,,,50"),
        ("open,1,\"\",,,,", "row,,,,,50"),
        ("open,,1,,,,", "row,,,,,50"),
        ("open,1,,1,,,", "row,,,,,50"),
        ("open,1,1,1,,,", "row,,,,,50"),
        ("open,1,1,,,,1", "row,,,,,50"),
        ("open,1,1,,,", "row,,,,,50"),
        ("open,1,1,,,,,", "row,,,,,50"),
    ] {
        assert_eq!(body(row.as_bytes()), format!("{answer}\r\n"), "{row}");
    }
    // A refused header leaves the table of an earlier opening, and without one there is still none.
    let input = "open,1,1024,,,,\r\nbeacon,,,,,,\r\nopen,1,3,,,,\r\noffer,7,3,1,2,0,1\r\nopen,2,2048,,,,\r\n\
        open,0,2048,,,,\r\nopen,2,x,,,,\r\nbeacon,,,,,,\r\n";
    let output = "open,,,,,61\r\nbeacon,,,,,51\r\nopen,,,,,0\r\noffer,7,,,,0\r\nopen,,,,,61\r\n\
        open,,,,,1\r\nrow,,,,,50\r\nbeacon,,,,,0\r\nslot,7,0,3,2,\r\n";
    assert_eq!(body(input.as_bytes()), output);
}

#[test]
fn numbers() {
    for (text, value) in [
        ("0", Some(0)),
        ("1", Some(1)),
        ("0000000000", Some(0)),
        ("0000000001", Some(1)),
        ("00000000001", None),
        ("4294967295", Some(u32::MAX)),
        ("4294967296", None),
        ("9999999999", None),
        ("10000000000", None),
        ("", None),
        (" 1", None),
        ("1 ", None),
        ("+1", None),
        ("-1", None),
        ("1.", None),
        ("a", None),
        ("\u{660}", None),
        ("1\r", None),
        ("1\n", None),
        ("/", None),
        (":", None),
    ] {
        assert_eq!(read_number(text.as_bytes()), value, "{text:?}");
    }
    let mut random = Random::new(401);
    let mut values = vec![0, u32::MAX];
    for power in 0..10 {
        let ten = 10u32.pow(power);
        values.extend([ten - 1, ten, ten + 1, 9 * (ten / 10)]);
    }
    values.extend((0..20_000).map(|_| (random.bits() >> random.between(32, 63)) as u32));
    for value in values {
        let mut text = Vec::new();
        push_number(&mut text, value);
        assert_eq!(text, value.to_string().into_bytes());
        assert_eq!(read_number(&text), Some(value));
    }
}

/// The digits of a number, taken from behind what a line already has.
fn printed(number: u32) -> String {
    let mut line = b"slot,".to_vec();
    push_number(&mut line, number);
    String::from_utf8(line).unwrap().strip_prefix("slot,").unwrap().to_string()
}

/// The digits from a table of powers of ten, as they were printed before they were worked out by dividing.
fn by_powers_of_ten(number: u32) -> String {
    const POWERS: [u32; 10] =
        [1_000_000_000, 100_000_000, 10_000_000, 1_000_000, 100_000, 10_000, 1_000, 100, 10, 1];
    let first = POWERS.iter().position(|&power| number >= power).unwrap_or(POWERS.len() - 1);
    let mut rest = number;
    let mut text = String::new();
    for power in &POWERS[first..] {
        text.push(char::from(b'0' + (rest / power) as u8));
        rest %= power;
    }
    text
}

/// Numbers of so many digits: those at both ends, random ones, and such with zeros at their end and inside.
fn numbers_of_width(random: &mut Random, width: u32) -> Vec<u32> {
    let least = if width == 1 { 0 } else { 10u32.pow(width - 1) };
    let largest = u32::try_from(10u64.pow(width) - 1).unwrap_or(u32::MAX);
    let mut numbers = vec![least, least + 1, largest - 1, largest];
    for _ in 0..2_000 {
        let any = random.word(least, largest);
        let ten = 10u32.pow(random.word(1, width - 1));
        let zeros_at_the_end = any - any % ten;
        let a_zero_inside = zeros_at_the_end + any % (ten / 10);
        numbers.extend([any, zeros_at_the_end, a_zero_inside]);
    }
    numbers
}

#[test]
fn printed_numbers_are_the_texts_written_here() {
    for (number, text) in [
        (0, "0"),
        (1, "1"),
        (9, "9"),
        (10, "10"),
        (11, "11"),
        (99, "99"),
        (100, "100"),
        (101, "101"),
        (1_024, "1024"),
        (9_000, "9000"),
        (10_010, "10010"),
        (65_535, "65535"),
        (900_009, "900009"),
        (1_024_000, "1024000"),
        (67_107_840, "67107840"),
        (261_120_000, "261120000"),
        (999_999_999, "999999999"),
        (1_000_000_000, "1000000000"),
        (1_234_567_890, "1234567890"),
        (4_000_000_004, "4000000004"),
        (4_294_967_290, "4294967290"),
        (4_294_967_295, "4294967295"),
    ] {
        assert_eq!(printed(number), text);
    }
}

#[test]
fn numbers_of_every_width_are_printed_in_full_and_as_the_powers_of_ten_gave_them() {
    let mut random = Random::new(401);
    for width in 1..=10 {
        for number in numbers_of_width(&mut random, width) {
            let text = printed(number);
            assert_eq!(text.len(), width as usize, "{text:?} for {number}");
            assert!(text.bytes().all(|byte| byte.is_ascii_digit()), "{text:?} for {number}");
            assert!(!text.starts_with('0') || text == "0", "{text:?} for {number}");
            assert_eq!(read_number(text.as_bytes()), Some(number));
            assert_eq!(text, by_powers_of_ten(number));
            assert_eq!(text, number.to_string());
        }
    }
}

#[test]
fn longest_rows() {
    let open = "open,1,,,,,\r\n";
    let row = "offer,0000000020,0000000003,0000000002,0000000005,0000000000,002";
    assert_eq!(row.len(), 64);
    assert_eq!(body(format!("{open}{row}\r\n").as_bytes()), "open,,,,,0\r\noffer,20,,,,0\r\n");
    assert_eq!(body(format!("{open}{row}").as_bytes()), "open,,,,,0\r\noffer,20,,,,0\r\n");
    let longer = row.replace(",002", ",0002");
    assert_eq!(body(format!("{open}{longer}\r\n").as_bytes()), "open,,,,,0\r\nrow,,,,,50\r\n");
    assert_eq!(body(format!("{open}{longer}").as_bytes()), "open,,,,,0\r\nrow,,,,,50\r\n");
    assert_eq!(body(format!("{open}{row}\r\r\n").as_bytes()), "open,,,,,0\r\nrow,,,,,50\r\n");
    assert_eq!(body(format!("{open}{row}\r").as_bytes()), "open,,,,,0\r\nrow,,,,,50\r\n");
    assert_eq!(Call::read(row.as_bytes()).unwrap().verb(), b"offer");
    assert_eq!(Call::read(longer.as_bytes()), None);
}

/// A row of a hundred million bytes is skipped, not kept.
#[test]
fn a_row_without_end() {
    let input = io::repeat(b',').take(100_000_000).chain(&b"\r\nopen,1,,,,,\r\n"[..]);
    let mut output = Vec::new();
    run(input, &mut output).unwrap();
    assert_eq!(output, [HEADER, b"row,,,,,50\r\nopen,,,,,0\r\n"].concat());
}

#[test]
fn an_error_while_reading_keeps_what_was_done() {
    struct Broken;
    impl Read for Broken {
        fn read(&mut self, _: &mut [u8]) -> io::Result<usize> {
            Err(io::Error::other("broken"))
        }
    }
    let mut output = Vec::new();
    let outcome = run(b"open,1,,,,,\r\nbeacon".chain(Broken), &mut output);
    assert_eq!(outcome.unwrap_err().to_string(), "broken");
    assert_eq!(output, [HEADER, b"open,,,,,0\r\n"].concat());
}

/// Rows found by searching the whole input, and forms judged by text functions.
fn plain_rows(mut input: &[u8]) -> Vec<&[u8]> {
    let mut rows = Vec::new();
    while let Some(at) = input.windows(2).position(|pair| pair == b"\r\n") {
        rows.push(&input[..at]);
        input = &input[at + 2..];
    }
    if !input.is_empty() {
        rows.push(input);
    }
    rows
}

fn plainly_a_call(row: &[u8]) -> bool {
    let Ok(text) = std::str::from_utf8(row) else { return false };
    let fields: Vec<&str> = text.split(',').collect();
    let number = |field: &str| {
        (1..=10).contains(&field.len())
            && field.chars().all(|c| c.is_ascii_digit())
            && field.parse::<u64>().unwrap() < 1 << 32
    };
    let empty = |from: usize| fields[from..].iter().all(|field| field.is_empty());
    text.len() <= 64
        && fields.len() == 7
        && match fields[0] {
            "open" => number(fields[1]) && (fields[2].is_empty() || number(fields[2])) && empty(3),
            "withdraw" => number(fields[1]) && empty(2),
            "offer" => fields[1..].iter().all(|field| number(field)),
            "beacon" => empty(1),
            _ => false,
        }
}

/// One answer row for each input row, refused with 50 just where the row is no call.
fn check_rows(input: &[u8]) {
    let output = String::from_utf8(run_bytes(input)).unwrap();
    assert!(output.ends_with("\r\n"));
    let mut lines = output.split_terminator("\r\n");
    assert_eq!(lines.next(), Some("row,stream,job,start,length,answer"));
    let answers: Vec<&str> = lines.filter(|line| !line.starts_with("slot,")).collect();
    let rows = plain_rows(input);
    assert_eq!(answers.len(), rows.len());
    for (row, answer) in rows.iter().zip(answers) {
        assert_eq!(answer.split(',').count(), 6);
        if plainly_a_call(row) {
            let verb = std::str::from_utf8(row).unwrap().split(',').next().unwrap();
            assert!(answer.starts_with(&format!("{verb},")), "{answer} for {row:?}");
            assert!(!answer.ends_with(",50"));
        } else {
            assert_eq!(answer, "row,,,,,50", "{row:?}");
        }
    }
}

#[test]
fn random_bytes() {
    let mut random = Random::new(402);
    const LIKELY: &[u8] = b"\r\n\r\n,,,,,,,,0123456789openfrwithdabc\" ";
    for _ in 0..4_000 {
        let plain = random.chance(50);
        let input: Vec<u8> = (0..random.between(0, 300))
            .map(|_| if plain { random.bits() as u8 } else { *random.pick(LIKELY) })
            .collect();
        check_rows(&input);
    }
}

#[test]
fn damaged_lists() {
    let mut random = Random::new(403);
    for seed in 0..50 {
        let [damaged, mix] =
            if seed % 2 == 0 { ["damaged", "mix"] } else { ["headed-damaged", "headed-mix"] };
        check_rows(&lists::make(damaged, seed, 400).unwrap());
        let mut input = lists::make(mix, seed, 300).unwrap();
        for _ in 0..random.between(1, 60) {
            let at = random.between(0, input.len() as u64 - 1) as usize;
            match random.between(0, 3) {
                0 => input[at] = random.bits() as u8,
                1 => input[at] ^= 1 << random.between(0, 7),
                2 => {
                    input.remove(at);
                }
                _ => input.insert(at, *random.pick(b"\r\n,09\"")),
            }
        }
        check_rows(&input);
        input.truncate(random.between(0, input.len() as u64) as usize);
        check_rows(&input);
    }
}

#[test]
fn every_chunking_gives_the_same() {
    for name in lists::NAMES.into_iter().chain(lists::HEADED).chain([lists::DIGITS]) {
        let input = lists::make(name, 5, lists::usual_size(name).min(400)).unwrap();
        let whole = run_bytes(&input);
        for size in [1, 7, 63, 64, 65, 4_096] {
            assert_eq!(run_in_chunks(&input, size), whole, "{name} in chunks of {size}");
        }
    }
}

#[test]
fn the_program_itself_in_chunks() {
    for name in ["cases", "edges", "damaged"] {
        let input = lists::make(name, 6, 300).unwrap();
        let whole = run_bytes(&input);
        for size in [7, 63, 4_096] {
            assert_eq!(run_program(&input, size), whole, "{name} in chunks of {size}");
        }
    }
    let cases = lists::make("cases", 6, 1).unwrap();
    assert_eq!(run_program(&cases, 1), run_bytes(&cases));
}
