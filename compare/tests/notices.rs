//! The comparison notices a program that differs, and its rows leave no width of a number out.

use std::path::Path;

use reference::rows::run_bytes;

#[test]
fn a_program_that_echoes_is_found_out() {
    let outcome = compare::fuzz(Path::new("/bin/cat"), 1, 10).expect("it runs");
    let difference = outcome.expect_err("cat is no planner");
    assert_eq!(difference.expected, "row,stream,job,start,length,answer");
}

#[test]
fn packets_arrive_whole_and_in_order() {
    let input: Vec<u8> = (0..20_000u32).map(|i| (i % 251) as u8).collect();
    for packet in compare::PACKETS {
        let output = compare::output_of(Path::new("/bin/cat"), &input, Some(packet)).expect("it runs");
        assert_eq!(output, input);
    }
}

#[test]
fn a_round_prints_numbers_of_every_width_with_and_without_a_zero_at_their_end() {
    let mut counts = [[0; 2]; 10];
    for (_, input) in compare::round(1) {
        for field in run_bytes(&input).split(|byte| b",\r\n".contains(byte)) {
            if field.first().is_some_and(u8::is_ascii_digit) {
                counts[field.len() - 1][usize::from(field.ends_with(b"0"))] += 1;
            }
        }
    }
    assert!(counts.iter().flatten().all(|&count| count >= 20), "by width, without and with: {counts:?}");
}
