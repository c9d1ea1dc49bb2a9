//! A small line plot as SVG, both axes by powers of ten. Lines differ in dashes and marks, so it can be read in grey.

use std::fmt::Write;

/// A line of the plot: its name, and points with both numbers above 0.
pub struct Line {
    /// Written in the margin, behind a sample of the line.
    pub name: &'static str,
    /// In the order in which they are joined.
    pub points: Vec<(f64, f64)>,
}

/// What the plot says beside its lines.
pub struct Text<'a> {
    /// Above the plot.
    pub title: &'a str,
    /// Below the plot.
    pub across: &'a str,
}

const WIDTH: f64 = 520.0;
const HEIGHT: f64 = 300.0;
const LEFT: f64 = 52.0;
const RIGHT: f64 = 96.0;
const TOP: f64 = 30.0;
const BOTTOM: f64 = 40.0;

/// An axis over whole powers of ten.
struct Axis {
    low: i32,
    high: i32,
    from: f64,
    to: f64,
}

impl Axis {
    fn over(values: impl Iterator<Item = f64> + Clone, from: f64, to: f64) -> Axis {
        let low = values.clone().fold(f64::INFINITY, f64::min).log10().floor() as i32;
        let high = values.fold(0.0, f64::max).log10().ceil() as i32;
        Axis { low, high: high.max(low + 1), from, to }
    }

    fn place(&self, value: f64) -> f64 {
        let part = (value.log10() - f64::from(self.low)) / f64::from(self.high - self.low);
        self.from + part * (self.to - self.from)
    }

    fn ticks(&self) -> impl Iterator<Item = (i32, f64)> {
        (self.low..=self.high).map(|power| (power, self.place(10f64.powi(power))))
    }
}

/// The plot's text.
pub fn svg(text: &Text, lines: &[Line]) -> String {
    let points = lines.iter().flat_map(|line| line.points.iter());
    let x = Axis::over(points.clone().map(|point| point.0), LEFT, WIDTH - RIGHT);
    let y = Axis::over(points.map(|point| point.1), HEIGHT - BOTTOM, TOP);
    let mut out = format!(
        "<svg xmlns=\"http://www.w3.org/2000/svg\" viewBox=\"0 0 {WIDTH} {HEIGHT}\" font-family=\"sans-serif\" font-size=\"11\">\n\
         <rect width=\"{WIDTH}\" height=\"{HEIGHT}\" fill=\"#fff\"/>\n\
         <text x=\"{LEFT}\" y=\"18\" font-size=\"12\">{}</text>\n",
        text.title
    );
    grid(&mut out, &x, &y);
    let _ = writeln!(
        out,
        "<text x=\"{:.0}\" y=\"{:.0}\" text-anchor=\"middle\">{}</text>",
        (x.from + x.to) / 2.0,
        HEIGHT - 8.0,
        text.across
    );
    for (place, line) in lines.iter().enumerate() {
        draw(&mut out, &x, &y, line, place);
    }
    names(&mut out, &x, &y, lines);
    out + "</svg>\n"
}

fn grid(out: &mut String, x: &Axis, y: &Axis) {
    for (power, at) in x.ticks() {
        let _ = writeln!(out, "<path d=\"M{at:.1} {:.1}V{:.1}\" stroke=\"#ddd\"/>", y.from, y.to);
        tick(out, at, y.from + 17.0, "middle", power);
    }
    for (power, at) in y.ticks() {
        let _ = writeln!(out, "<path d=\"M{:.1} {at:.1}H{:.1}\" stroke=\"#ddd\"/>", x.from, x.to);
        tick(out, x.from - 6.0, at + 4.0, "end", power);
    }
}

fn tick(out: &mut String, x: f64, y: f64, anchor: &str, power: i32) {
    let _ = writeln!(
        out,
        "<text x=\"{x:.1}\" y=\"{y:.1}\" text-anchor=\"{anchor}\">10<tspan dy=\"-4\" font-size=\"8\">{power}</tspan></text>"
    );
}

/// The grey and the dashes of a line, by its place among the lines.
fn style(place: usize) -> (&'static str, &'static str) {
    const STYLES: [(&str, &str); 4] =
        [("#000", "none"), ("#555", "6 3"), ("#888", "2 3"), ("#aaa", "8 2 2 2")];
    STYLES[place % STYLES.len()]
}

fn draw(out: &mut String, x: &Axis, y: &Axis, line: &Line, place: usize) {
    let at: Vec<(f64, f64)> = line.points.iter().map(|point| (x.place(point.0), y.place(point.1))).collect();
    joined(out, &at, place);
    at.iter().for_each(|&point| mark(out, point, place));
}

fn joined(out: &mut String, points: &[(f64, f64)], place: usize) {
    let (grey, dashes) = style(place);
    let at: Vec<String> = points.iter().map(|(x, y)| format!("{x:.1},{y:.1}")).collect();
    let _ = writeln!(
        out,
        "<polyline points=\"{}\" fill=\"none\" stroke=\"{grey}\" stroke-width=\"1.6\" stroke-dasharray=\"{dashes}\"/>",
        at.join(" ")
    );
}

fn mark(out: &mut String, (x, y): (f64, f64), place: usize) {
    let grey = style(place).0;
    let _ = writeln!(out, "<circle cx=\"{x:.1}\" cy=\"{y:.1}\" r=\"2.2\" fill=\"{grey}\"/>");
}

/// The height that a name takes, and the length of the sample before it.
const NAME: f64 = 14.0;
const SAMPLE: f64 = 24.0;

/// Each line's name in the margin, where nothing crosses it, as high as the line's last point. A sample of the line stands before it, since
/// a line may end far from the margin.
fn names(out: &mut String, x: &Axis, y: &Axis, lines: &[Line]) {
    let named: Vec<(usize, f64)> = lines
        .iter()
        .enumerate()
        .filter_map(|(place, line)| line.points.last().map(|point| (place, y.place(point.1))))
        .collect();
    let from = x.to + 12.0;
    for (place, height) in apart(named) {
        joined(out, &[(from, height), (from + SAMPLE, height)], place);
        mark(out, (from + SAMPLE / 2.0, height), place);
        let (at, name) = (from + SAMPLE + 5.0, lines[place].name);
        let _ = writeln!(out, "<text x=\"{at:.1}\" y=\"{:.1}\">{name}</text>", height + 4.0);
    }
}

/// Names from the lowest on the page to the highest, moved up where they would lie on the one before.
fn apart(mut named: Vec<(usize, f64)>) -> Vec<(usize, f64)> {
    named.sort_by(|a, b| b.1.total_cmp(&a.1));
    let mut free = f64::INFINITY;
    for (_, height) in &mut named {
        *height = height.min(free);
        free = *height - NAME;
    }
    named
}

#[cfg(test)]
mod tests {
    use super::*;

    #[test]
    fn axes_run_over_powers_of_ten() {
        let axis = Axis::over([3.0, 500.0].into_iter(), 0.0, 300.0);
        assert_eq!((axis.low, axis.high), (0, 3));
        assert_eq!(axis.place(100.0), 200.0);
        assert_eq!(axis.ticks().count(), 4);
    }

    #[test]
    fn every_line_is_named() {
        let lines = ["ours", "second"].map(|name| Line { name, points: vec![(1.0, 10.0), (10.0, 10.0)] });
        let text = svg(&Text { title: "t", across: "a" }, &lines);
        assert!(text.contains(">ours<") && text.contains(">second<") && text.ends_with("</svg>\n"));
        // Each line, and its sample.
        assert_eq!(text.matches("<polyline").count(), 4);
    }

    #[test]
    fn names_do_not_lie_on_each_other() {
        let heights = vec![(0, 100.0), (1, 30.0), (2, 97.0), (3, 100.0), (4, 50.0)];
        assert_eq!(apart(heights), [(0, 100.0), (3, 86.0), (2, 72.0), (4, 50.0), (1, 30.0)]);
    }

    #[test]
    fn names_stand_in_the_margin() {
        let line = Line { name: "ours", points: vec![(1.0, 1.0), (100.0, 10.0)] };
        let text = svg(&Text { title: "t", across: "a" }, &[line]);
        let at = text.split("<text x=\"").find(|part| part.contains(">ours<")).unwrap();
        let at: f64 = at.split('"').next().unwrap().parse().unwrap();
        assert!(at > WIDTH - RIGHT);
    }
}
