//! The page: lengths, where things stand on it, and the lines of the document.
//!
//! All coordinates are whole hundredths of a pixel, so that the same plan gives the same bytes on every machine.

use std::fmt::{self, Display, Write};

use crate::plan::Plan;
use crate::words;

/// The width fits A4 and Letter paper at 96 pixels for an inch. So does the height of 32 lanes.
pub const WIDTH: u64 = 720;
/// What the page leaves free at its sides.
pub const MARGIN: u64 = 16;
/// Where the streams' names end.
pub const STREAM_COLUMN: u64 = 52;
/// The width of a gauge.
pub const GAUGE: u64 = 60;

/// A character of the page's font, a digit or a letter, takes no more.
const CHARACTER: u64 = 6;
const GAP: u64 = 12;

/// A length in hundredths of a pixel.
#[derive(Clone, Copy, Debug, PartialEq, Eq, PartialOrd, Ord)]
pub struct Px(pub u64);

impl Display for Px {
    fn fmt(&self, formatter: &mut fmt::Formatter) -> fmt::Result {
        write!(formatter, "{}.{:02}", self.0 / 100, self.0 % 100)
    }
}

/// A length in whole pixels.
pub fn px(whole: u64) -> Px {
    Px(whole * 100)
}

/// A picture under construction. Writing to a string cannot fail, so the results of `write!` are dropped here, once.
#[derive(Default)]
pub struct Page {
    /// The document so far.
    pub text: String,
}

impl Page {
    /// A line of the document.
    pub fn add(&mut self, line: fmt::Arguments) {
        let _ = self.text.write_fmt(line);
        self.text.push('\n');
    }

    /// A drawn line.
    pub fn line(&mut self, [x1, y1, x2, y2]: [Px; 4], stroke: &str) {
        self.add(format_args!("<line x1=\"{x1}\" y1=\"{y1}\" x2=\"{x2}\" y2=\"{y2}\" {stroke}/>"));
    }

    /// Words at a place.
    pub fn text(&mut self, x: Px, y: Px, anchor: &str, words: impl Display) {
        self.add(format_args!("<text x=\"{x}\" y=\"{y}\" text-anchor=\"{anchor}\">{words}</text>"));
    }
}

/// Where columns and slots lie. The columns are as wide as what stands in them, and the slots have the rest.
pub struct Layout {
    /// Where the periods end.
    pub period: u64,
    /// Where the first slot starts.
    pub left: u64,
    /// Where the last slot ends.
    pub right: u64,
    /// Where the numbers of slots had, of the minimum and of the maximum end.
    pub numbers: [u64; 3],
    /// The number of slots.
    pub end: u64,
}

impl Layout {
    /// The page of a plan. Without requests it has neither periods nor numbers.
    pub fn of(plan: &Plan) -> Layout {
        let rows = plan.lanes.iter().filter_map(|lane| Some((lane.request.as_ref()?, lane.had()?)));
        let (mut period, mut widths) = (width("period"), [width("max"); 3]);
        for (request, had) in rows {
            period = period.max(width(&words::period(request)));
            let texts = [words::had(had), words::grouped(request.min), words::grouped(request.max)];
            widths = [0, 1, 2].map(|i| widths[i].max(width(&texts[i])));
        }
        let max = WIDTH - MARGIN;
        let min = max - widths[2] - GAP;
        let had = min - widths[1] - GAP;
        let period = STREAM_COLUMN + GAP + period;
        let (left, right) = match plan.has_requests {
            true => (period + GAP, had - widths[0] - 2 * GAP - GAUGE),
            // Half of the last tick's label stands to the right.
            false => (STREAM_COLUMN + GAP, WIDTH - MARGIN - 2 * GAP),
        };
        Layout { period, left, right, numbers: [had, min, max], end: plan.end }
    }

    /// The left edge of a slot.
    pub fn x(&self, slot: u64) -> Px {
        Px(self.left * 100 + slot * (self.right - self.left) * 100 / self.end)
    }

    /// The left edge of the gauges.
    pub fn gauge(&self) -> u64 {
        self.right + GAP
    }

    /// The slots that the axis names: eighths of an interval, which are whole numbers of slots, or fewer parts where labels would touch.
    pub fn ticks(&self) -> Vec<u64> {
        let label = width(&words::grouped(self.end)) + CHARACTER;
        let parts = [8, 4].into_iter().find(|parts| parts * label <= self.right - self.left).unwrap_or(2);
        let step = self.end.div_ceil(parts).max(1);
        let mut ticks: Vec<u64> =
            (0..self.end).step_by(step as usize).filter(|tick| (self.end - tick) * 2 >= step).collect();
        ticks.push(self.end);
        ticks
    }
}

fn width(text: &str) -> u64 {
    text.len() as u64 * CHARACTER
}

#[cfg(test)]
mod tests {
    use super::*;
    use crate::answers::Record;
    use crate::plan::Known;
    use crate::requests::{Request, Table};

    fn layout(end: u64) -> Layout {
        Layout { period: 0, left: 136, right: 650, numbers: [0; 3], end }
    }

    #[test]
    fn ticks_are_eighths_and_never_crowd_the_end() {
        let ticks = |end| layout(end).ticks();
        assert_eq!(ticks(1_024), [0, 128, 256, 384, 512, 640, 768, 896, 1_024]);
        assert_eq!(ticks(1_024_000).len(), 9);
        assert_eq!(ticks(1), [0, 1]);
        assert_eq!(ticks(9), [0, 2, 4, 6, 8, 9]);
        assert_eq!(ticks(26), [0, 4, 8, 12, 16, 20, 24, 26]);
        assert_eq!(ticks(17), [0, 3, 6, 9, 12, 15, 17]);
        let narrow = Layout { right: 400, ..layout(1_024_000) };
        assert_eq!(narrow.ticks(), [0, 256_000, 512_000, 768_000, 1_024_000]);
    }

    #[test]
    fn slots_lie_between_the_edges() {
        let places: Vec<String> =
            [0, 1, 512, 1_024].iter().map(|&slot| layout(1_024).x(slot).to_string()).collect();
        assert_eq!(places, ["136.00", "136.50", "393.00", "650.00"]);
    }

    #[test]
    fn the_widest_columns_leave_room_for_the_slots() {
        let interval = 1_024_000;
        let whole = Request::admitted([2, 255, 200_000_000, 261_120_000, 510], interval).unwrap();
        let mut transfer = Request::admitted([3, 65_535, u64::from(u32::MAX), 0, 65_535], interval).unwrap();
        (0..5_000).for_each(|_| transfer.pass(800_000));
        let held = [(1, whole), (65_535, transfer)].into();
        let record = Record { row: 2, stream: 1, job: 0, start: 0, length: interval };
        let plan = Plan::new(1, &[record], Known::Table(Table { interval, held })).unwrap();
        let layout = Layout::of(&plan);
        assert!(layout.left < layout.right && layout.right - layout.left >= 200);
        assert!(layout.gauge() + GAUGE < layout.numbers[0] && layout.numbers.is_sorted());
        assert_eq!(layout.ticks(), [0, 512_000, 1_024_000]);
    }
}
