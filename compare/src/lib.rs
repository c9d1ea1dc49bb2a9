//! Runs a program `shelf` and the second implementation on the same made-up rows, and compares their output byte for byte.
//!
//! A list goes to the program at once through a pipe, and again in packets of a few bytes each, so that every read of the program
//! ends where a packet does.

use std::fs::File;
use std::io::{self, Read, Write};
use std::os::fd::{FromRawFd, OwnedFd};
use std::path::Path;
use std::process::{Command, Stdio};
use std::thread;

use reference::lists;
use reference::random::Random;
use reference::rows::run_bytes;

/// The sizes of the packets in which a list is delivered again.
pub const PACKETS: [usize; 4] = [1, 7, 63, 4096];

/// A difference between the two outputs.
#[derive(Debug)]
pub struct Difference {
    pub list: String,
    pub packet: Option<usize>,
    pub input: Vec<u8>,
    pub expected: String,
    pub found: String,
}

/// What a run went through.
#[derive(Debug, Default)]
pub struct Tally {
    pub lists: usize,
    pub rows: usize,
    pub runs: usize,
}

unsafe extern "C" {
    fn pipe2(ends: *mut i32, flags: i32) -> i32;
}

/// A pipe in packet mode: a read ends where a write did. At most 4,096 bytes are one packet.
fn packet_pipe() -> io::Result<(OwnedFd, File)> {
    const O_DIRECT: i32 = 0o40000;
    const O_CLOEXEC: i32 = 0o2000000;
    let mut ends = [0; 2];
    // SAFETY: pipe2 writes two descriptors into the array; on success they are open and belong to nobody else.
    unsafe {
        if pipe2(ends.as_mut_ptr(), O_DIRECT | O_CLOEXEC) != 0 {
            return Err(io::Error::last_os_error());
        }
        Ok((OwnedFd::from_raw_fd(ends[0]), File::from_raw_fd(ends[1])))
    }
}

/// What the program writes for this input, delivered at once or in packets.
pub fn output_of(program: &Path, input: &[u8], packet: Option<usize>) -> io::Result<Vec<u8>> {
    let mut command = Command::new(program);
    command.stdout(Stdio::piped());
    let (mut child, mut to): (_, Box<dyn Write + Send>) = match packet {
        None => {
            let mut child = command.stdin(Stdio::piped()).spawn()?;
            let to = child.stdin.take().ok_or_else(|| io::Error::other("no standard input"))?;
            (child, Box::new(to))
        }
        Some(_) => {
            let (from, to) = packet_pipe()?;
            (command.stdin(Stdio::from(from)).spawn()?, Box::new(to))
        }
    };
    drop(command);
    let mut output = Vec::new();
    let mut from = child.stdout.take().ok_or_else(|| io::Error::other("no standard output"))?;
    thread::scope(|scope| {
        // A program that stops reading early shows in its output, so a refused write is no error here.
        scope.spawn(move || {
            for part in input.chunks(packet.unwrap_or(input.len().max(1))) {
                if to.write_all(part).is_err() {
                    return;
                }
            }
        });
        from.read_to_end(&mut output)
    })?;
    child.wait()?;
    Ok(output)
}

/// Bytes of the alphabet of rows in no sensible order, with row ends here and there.
fn noise(seed: u64, rows: usize) -> Vec<u8> {
    let mut random = Random::new(seed);
    let words: [&[u8]; 14] = [
        b"open", b"offer", b"withdraw", b"beacon", b",", b",,", b",,,,,,", b"1", b"4294967295", b"4294967296", b"\r", b"\n",
        b"\r\n", b"x\0\xff",
    ];
    let mut bytes = Vec::new();
    for _ in 0..rows {
        for _ in 0..random.between(1, 12) {
            bytes.extend_from_slice(*random.pick(&words));
        }
        bytes.extend_from_slice(b"\r\n");
    }
    bytes
}

/// The lists of one round, each with its name.
pub fn round(seed: u64) -> Vec<(String, Vec<u8>)> {
    let sizes = [
        ("mix", 4000),
        ("damaged", 4000),
        ("full", 6),
        ("tight", 40),
        ("school", 1),
        ("large", 4),
        ("header", 200),
        ("headed-mix", 4000),
        ("headed-damaged", 4000),
        ("headed-full", 6),
        ("headed-tight", 40),
        ("headed-school", 1),
        ("headed-large", 4),
        (lists::DIGITS, 1000),
    ];
    let mut round: Vec<(String, Vec<u8>)> = sizes
        .iter()
        .filter_map(|(name, size)| Some((name.to_string(), lists::make(name, seed, *size)?)))
        .collect();
    round.push(("noise".to_string(), noise(seed, 2000)));
    round
}

fn calls_in(output: &[u8]) -> usize {
    let rows = output.split(|&byte| byte == b'\n').filter(|row| !row.is_empty() && !row.starts_with(b"slot,")).count();
    rows.saturating_sub(1)
}

fn row_at(output: &[u8], at: usize) -> String {
    let start = output[..at].iter().rposition(|&byte| byte == b'\n').map_or(0, |i| i + 1);
    let end = output[at..].iter().position(|&byte| byte == b'\r').map_or(output.len(), |i| at + i);
    String::from_utf8_lossy(&output[start..end]).into_owned()
}

/// Compares one list, delivered at once and in packets.
pub fn compare(program: &Path, name: &str, input: &[u8]) -> io::Result<Result<Tally, Difference>> {
    let expected = run_bytes(input);
    let mut tally = Tally { lists: 1, rows: calls_in(&expected), runs: 0 };
    // Packets of a byte make a read for each byte: the beginning of a list is enough there.
    for packet in [None].into_iter().chain(PACKETS.map(Some)) {
        let (input, expected) = match packet {
            Some(size) if size < 4096 && input.len() > 20_000 => (&input[..20_000], run_bytes(&input[..20_000])),
            _ => (input, expected.clone()),
        };
        let found = output_of(program, input, packet)?;
        tally.runs += 1;
        if found != expected {
            let at = found.iter().zip(&expected).take_while(|(a, b)| a == b).count();
            return Ok(Err(Difference {
                list: name.to_string(),
                packet,
                input: input.to_vec(),
                expected: row_at(&expected, at.min(expected.len())),
                found: row_at(&found, at.min(found.len())),
            }));
        }
    }
    Ok(Ok(tally))
}

/// Compares fresh lists until so many rows were compared.
pub fn fuzz(program: &Path, seed: u64, rows: usize) -> io::Result<Result<Tally, Difference>> {
    let mut all = Tally::default();
    for turn in 0.. {
        if all.rows >= rows {
            break;
        }
        for (name, input) in round(seed.wrapping_add(turn)) {
            match compare(program, &format!("{name} {}", seed.wrapping_add(turn)), &input)? {
                Ok(one) => {
                    all.lists += one.lists;
                    all.rows += one.rows;
                    all.runs += one.runs;
                }
                Err(difference) => return Ok(Err(difference)),
            }
        }
    }
    Ok(Ok(all))
}
