//! Rows in, rows out: cutting the input, reading calls, carrying them out and printing answers.

use std::io::{self, ErrorKind, Read, Write};

use crate::plan::{PLAN_WORDS, RECORD_WORDS};
use crate::refusal::{Refusal, answer};
use crate::request::Offer;
use crate::table::Table;

/// The first row of every output, with its line end.
pub const HEADER: &[u8] = b"row,stream,job,start,length,answer\r\n";
/// The most bytes a row may have, not counting its CR LF.
pub const LONGEST_ROW: usize = 64;
/// Fields in an input row.
pub const FIELDS: usize = 7;
/// The most digits a number may have.
pub const MOST_DIGITS: usize = 10;

const READ_BYTES: usize = 1 << 16;
const WRITE_BYTES: usize = 1 << 16;

/// Cuts a stream of bytes into rows, whatever the sizes of the chunks it comes in.
///
/// A row goes up to the first CR that has an LF straight after it. Any other CR or LF stays in the row. Of a
/// row that is too long only the fact is kept.
pub struct Cutter {
    kept: [u8; LONGEST_ROW],
    /// Bytes in the row so far; one more than the longest row stands for any larger number.
    length: usize,
    /// Whether the byte before was a CR of which it is not yet known where it belongs.
    after_cr: bool,
}

/// A row as the cutter found it.
#[derive(Clone, Copy, Debug, PartialEq, Eq)]
pub enum Row<'a> {
    /// All its bytes, without the CR LF at its end.
    Whole(&'a [u8]),
    /// More bytes than a row may have.
    TooLong,
}

impl Default for Cutter {
    fn default() -> Self {
        Cutter { kept: [0; LONGEST_ROW], length: 0, after_cr: false }
    }
}

impl Cutter {
    /// A cutter at the beginning of its input.
    pub fn new() -> Self {
        Cutter::default()
    }

    fn keep(&mut self, byte: u8) {
        if let Some(place) = self.kept.get_mut(self.length) {
            *place = byte;
        }
        self.length = (self.length + 1).min(LONGEST_ROW + 1);
    }

    fn hand_over<E>(&mut self, use_row: &mut impl FnMut(Row) -> Result<(), E>) -> Result<(), E> {
        let row = self.kept.get(..self.length).map_or(Row::TooLong, Row::Whole);
        let outcome = use_row(row);
        self.length = 0;
        outcome
    }

    /// Takes the next bytes of the input and hands over each row that ends in them.
    pub fn feed<E>(&mut self, chunk: &[u8], use_row: &mut impl FnMut(Row) -> Result<(), E>) -> Result<(), E> {
        for &byte in chunk {
            let after_cr = std::mem::replace(&mut self.after_cr, byte == b'\r');
            match (after_cr, byte) {
                (true, b'\n') => self.hand_over(use_row)?,
                (true, b'\r') => self.keep(b'\r'),
                (true, _) => {
                    self.keep(b'\r');
                    self.keep(byte);
                }
                (false, b'\r') => {}
                (false, _) => self.keep(byte),
            }
        }
        Ok(())
    }

    /// Ends the input. What is left since the last CR LF is a row too, unless nothing is left.
    pub fn finish<E>(&mut self, use_row: &mut impl FnMut(Row) -> Result<(), E>) -> Result<(), E> {
        if std::mem::take(&mut self.after_cr) {
            self.keep(b'\r');
        }
        if self.length > 0 { self.hand_over(use_row) } else { Ok(()) }
    }
}

/// A call that a row stands for.
#[derive(Clone, Copy, Debug, PartialEq, Eq)]
pub enum Call {
    /// `open` with its two numbers.
    Open {
        /// Time units of an interval.
        time_units: u32,
        /// Slots of the beacon header; 0 where the field is empty.
        header: u32,
    },
    /// `offer` with its six numbers.
    Offer(Offer),
    /// `withdraw` with its stream.
    Withdraw(u32),
    /// `beacon`.
    Beacon,
}

impl Call {
    /// The verb, as it stands in rows of input and output.
    pub const fn verb(&self) -> &'static [u8] {
        match self {
            Call::Open { .. } => b"open",
            Call::Offer(_) => b"offer",
            Call::Withdraw(_) => b"withdraw",
            Call::Beacon => b"beacon",
        }
    }

    /// The stream shown in the row of this call.
    pub const fn stream_shown(&self) -> Option<u32> {
        match self {
            Call::Offer(offer) => Some(offer.stream),
            Call::Withdraw(stream) => Some(*stream),
            Call::Open { .. } | Call::Beacon => None,
        }
    }

    /// Reads a call from the bytes of a row, or nothing if the row has another form.
    pub fn read(row: &[u8]) -> Option<Call> {
        if row.len() > LONGEST_ROW {
            return None;
        }
        let mut fields: [&[u8]; FIELDS] = [b""; FIELDS];
        let mut found = 0;
        for field in row.split(|&byte| byte == b',') {
            *fields.get_mut(found)? = field;
            found += 1;
        }
        if found != FIELDS {
            return None;
        }
        let [verb, numbers @ ..] = fields;
        let all_empty = |fields: &[&[u8]]| fields.iter().all(|field| field.is_empty());
        match verb {
            b"open" if all_empty(&numbers[2..]) => Some(Call::Open {
                time_units: read_number(numbers[0])?,
                header: if numbers[1].is_empty() { 0 } else { read_number(numbers[1])? },
            }),
            b"offer" => Some(Call::Offer(Offer {
                stream: read_number(numbers[0])?,
                kind: read_number(numbers[1])?,
                period: read_number(numbers[2])?,
                min: read_number(numbers[3])?,
                max: read_number(numbers[4])?,
                life: read_number(numbers[5])?,
            })),
            b"withdraw" if all_empty(&numbers[1..]) => Some(Call::Withdraw(read_number(numbers[0])?)),
            b"beacon" if all_empty(&numbers) => Some(Call::Beacon),
            _ => None,
        }
    }
}

/// Reads a number of one to ten digits that fits 32 bits.
pub fn read_number(digits: &[u8]) -> Option<u32> {
    if digits.is_empty() || digits.len() > MOST_DIGITS || !digits.iter().all(u8::is_ascii_digit) {
        return None;
    }
    let value = digits.iter().fold(0u64, |value, digit| 10 * value + u64::from(digit - b'0'));
    u32::try_from(value).ok()
}

/// Appends the digits of a number, without leading zeros.
pub fn push_number(line: &mut Vec<u8>, number: u32) {
    let mut digits = [0; MOST_DIGITS];
    let mut first = MOST_DIGITS;
    let mut rest = number;
    // Dividing by ten gives the last digit first, so the array is filled from its end. Even 0 has a digit.
    loop {
        first -= 1;
        digits[first] = b'0' + (rest % 10) as u8;
        rest /= 10;
        if rest == 0 {
            break;
        }
    }
    line.extend_from_slice(&digits[first..]);
}

/// The program's state between rows.
pub struct Shelf<W: Write> {
    table: Option<Table>,
    memory: Vec<u32>,
    line: Vec<u8>,
    output: W,
}

impl<W: Write> Shelf<W> {
    /// Starts with no table and writes the first row of the output.
    pub fn start(mut output: W) -> io::Result<Self> {
        output.write_all(HEADER)?;
        Ok(Shelf { table: None, memory: vec![0; PLAN_WORDS], line: Vec::new(), output })
    }

    fn print(&mut self, name: &[u8], numbers: [Option<u32>; 5]) -> io::Result<()> {
        self.line.clear();
        self.line.extend_from_slice(name);
        for number in numbers {
            self.line.push(b',');
            if let Some(number) = number {
                push_number(&mut self.line, number);
            }
        }
        self.line.extend_from_slice(b"\r\n");
        self.output.write_all(&self.line)
    }

    /// Carries out one row and prints what it gives.
    pub fn take_row(&mut self, row: Row) -> io::Result<()> {
        let call = match row {
            Row::Whole(bytes) => Call::read(bytes),
            Row::TooLong => None,
        };
        let Some(call) = call else {
            return self.print(b"row", [None, None, None, None, Some(Refusal::RowForm.number())]);
        };
        let mut count = 0;
        let number = match (&call, self.table.as_mut()) {
            (Call::Open { time_units, header }, _) => {
                let opened = Table::open(*time_units, *header);
                let number = answer(&opened);
                if let Ok(table) = opened {
                    self.table = Some(table);
                }
                number
            }
            (_, None) => Refusal::NotOpen.number(),
            (Call::Offer(offer), Some(table)) => answer(&table.offer(offer)),
            (Call::Withdraw(stream), Some(table)) => answer(&table.withdraw(*stream)),
            (Call::Beacon, Some(table)) => {
                let beacon = table.beacon(&mut self.memory);
                count = beacon.count;
                beacon.answer
            }
        };
        self.print(call.verb(), [call.stream_shown(), None, None, None, Some(number)])?;
        for place in 0..count {
            let at = RECORD_WORDS * place;
            let numbers = [self.memory[at], self.memory[at + 1], self.memory[at + 2], self.memory[at + 3]];
            let [stream, job, start, length] = numbers.map(Some);
            self.print(b"slot", [stream, job, start, length, None])?;
        }
        Ok(())
    }

    /// Sends everything printed so far on its way and gives the output back.
    pub fn finish(mut self) -> io::Result<W> {
        self.output.flush()?;
        Ok(self.output)
    }
}

/// Reads rows to the end of the input and prints the whole output.
///
/// When reading fails, what was printed up to there is still written out before the error is returned.
pub fn run(mut input: impl Read, output: impl Write) -> io::Result<()> {
    let mut shelf = Shelf::start(io::BufWriter::with_capacity(WRITE_BYTES, output))?;
    let mut cutter = Cutter::new();
    let mut chunk = vec![0; READ_BYTES];
    loop {
        match input.read(&mut chunk) {
            Ok(0) => break,
            Ok(read) => cutter.feed(&chunk[..read], &mut |row: Row| shelf.take_row(row))?,
            Err(error) if error.kind() == ErrorKind::Interrupted => {}
            Err(error) => {
                shelf.finish()?;
                return Err(error);
            }
        }
    }
    cutter.finish(&mut |row: Row| shelf.take_row(row))?;
    shelf.finish()?;
    Ok(())
}

/// Runs a whole input from memory.
pub fn run_bytes(input: &[u8]) -> Vec<u8> {
    let mut output = Vec::new();
    run(input, &mut output).expect("memory neither refuses reading nor writing");
    output
}
