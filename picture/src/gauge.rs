//! What each stream has had of what it was promised: numbers, and a gauge up to its maximum with a line at its minimum.

use crate::page::{GAUGE, Layout, MARGIN, Page, Px, px};
use crate::plan::{Lane, Plan};
use crate::words;

const HEIGHT: u64 = 8;
/// How far the line of the minimum sticks out above and below.
const OUT: u64 = 3;

/// The names of the columns.
pub fn heading(page: &mut Page, layout: &Layout, baseline: u64) {
    let over = [px(layout.numbers[2]), px(baseline - 13)];
    page.text(over[0], over[1], "end", "slots in the running period");
    for (name, x) in ["had", "min", "max"].into_iter().zip(layout.numbers) {
        page.text(px(x), px(baseline), "end", name);
    }
}

/// A lane's gauge and numbers, where its request is known.
pub fn lane(page: &mut Page, layout: &Layout, lane: &Lane, top: u64, fill: &str) {
    let (Some(request), Some(had)) = (&lane.request, lane.had()) else { return };
    page.add(format_args!("<g><title>{}</title>", words::lane_sentence(lane)));
    gauge(page, layout.gauge(), top + 6, [had[0], request.min, request.max], fill);
    page.add(format_args!("</g>"));
    let texts = [words::had(had), words::grouped(request.min), words::grouped(request.max)];
    for (text, x) in texts.into_iter().zip(layout.numbers) {
        page.text(px(x), px(top + 14), "end", text);
    }
}

/// A gauge of slots had, beside a minimum and a maximum that is not 0.
fn gauge(page: &mut Page, x: u64, y: u64, [had, min, max]: [u64; 3], fill: &str) {
    let part = |slots: u64| Px(GAUGE * 100 * slots.min(max) / max);
    let black = "stroke=\"#000000\" stroke-width=\"0.8\"";
    page.add(format_args!(
        "<rect x=\"{x}\" y=\"{y}\" width=\"{}\" height=\"{HEIGHT}\" fill=\"{fill}\"/>",
        part(had)
    ));
    page.add(format_args!(
        "<rect x=\"{x}\" y=\"{y}\" width=\"{GAUGE}\" height=\"{HEIGHT}\" fill=\"none\" {black}/>"
    ));
    let at = Px(x * 100 + part(min).0);
    page.line([at, px(y - OUT), at, px(y + HEIGHT + OUT)], "stroke=\"#000000\" stroke-width=\"1.6\"");
}

/// What a gauge means.
pub fn legend(page: &mut Page, plan: &Plan, top: u64, fill: &str) {
    if plan.has_requests {
        gauge(page, MARGIN, top, [2, 1, 3], fill);
        let meaning = "slots that the running period has had, of its maximum; the tall line is its minimum";
        page.text(px(MARGIN + GAUGE + 8), px(top + HEIGHT), "start", meaning);
    }
}

#[cfg(test)]
mod tests {
    use super::*;

    fn drawn(numbers: [u64; 3]) -> String {
        let mut page = Page::default();
        gauge(&mut page, 500, 80, numbers, "#eeeeee");
        page.text
    }

    #[test]
    fn a_gauge_shows_what_was_had_of_the_maximum() {
        for (numbers, width, minimum) in [
            ([0, 1, 4], "0.00", "515.00"),
            ([2, 1, 4], "30.00", "515.00"),
            ([4, 4, 4], "60.00", "560.00"),
            ([9, 4, 4], "60.00", "560.00"),
        ] {
            let text = drawn(numbers);
            assert!(text.contains(&format!("width=\"{width}\" height=\"8\" fill=\"#eeeeee\"")), "{text}");
            assert!(text.contains(&format!("<line x1=\"{minimum}\"")), "{text}");
        }
    }
}
