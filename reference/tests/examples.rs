//! Every example of the list gets its answer, and the list shows everything.

use reference::examples;
use reference::one_group::Case;
use reference::stream;
use reference::tally::Tally;

#[test]
fn each_example_is_answered_as_named() {
    let answers = stream::answers(&examples::list());
    let answers: Vec<&[u8]> = answers
        .strip_suffix(b"\n")
        .expect("each answer has its end")
        .split(|&byte| byte == b'\n')
        .collect();
    let all = examples::all();
    assert_eq!(answers.len(), all.len());
    for (number, (example, answer)) in all.iter().zip(answers).enumerate() {
        let place = format!("line {}: {}", number + 1, example.what);
        let answer = std::str::from_utf8(answer).unwrap();
        assert_eq!(&answer[..2], format!("{:02}", example.answer), "{place}");
        if let Some(report) = &example.report {
            let digits: String = report.iter().map(|byte| format!("{byte:02x}")).collect();
            assert_eq!(&answer[2..], digits, "{place}");
        }
    }
}

#[test]
fn every_answer_is_shown() {
    let all = examples::all();
    for answer in (0..=22).chain([25, 26]) {
        assert!(
            all.iter().any(|example| example.answer == answer),
            "{answer}"
        );
    }
}

#[test]
fn each_letter_is_shown_on_each_side() {
    let mut tally = Tally::default();
    tally.count(&examples::list());
    for (case, fate) in tally.fates() {
        assert!(fate.is_reached(), "{case}");
    }
    assert!(tally.marked_again().iter().all(|&count| count > 0));
}

#[test]
fn each_answer_is_shown_inside_one_group() {
    let mut tally = Tally::default();
    tally.count(&examples::list());
    for (case, number, count) in tally.groups() {
        assert!(count > 0, "{case}: {number}");
    }
}

#[test]
fn payments_that_get_9_or_10_leave_their_group() {
    let mut tally = Tally::default();
    tally.count(&examples::list());
    for case in Case::all() {
        if case.way.is_inside() {
            assert_eq!(tally.count_in(case, 9), 0, "{case}");
            assert_eq!(tally.count_in(case, 10), 0, "{case}");
        }
    }
}

#[test]
fn the_last_line_lacks_its_end() {
    assert_ne!(examples::list().last(), Some(&b'\n'));
}
