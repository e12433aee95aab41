use super::comparison::Comparison;
use super::entry::FirstMiss;
use super::reading::expected;
use crate::matching::case::Case;
use crate::matching::generate::case;

fn tell(answer: &mut [u32], told: [u32; 4]) -> u32 {
    answer.iter_mut().zip(told).for_each(|(word, number)| *word = number);
    told[0]
}

fn right(case: &Case, _: &mut [u32], answer: &mut [u32]) -> u32 {
    tell(answer, expected(case))
}

fn swaps_the_nodes(case: &Case, _: &mut [u32], answer: &mut [u32]) -> u32 {
    let [number, value, pattern, why] = expected(case);
    tell(answer, [number, pattern, value, why])
}

fn tells_the_roots(case: &Case, _: &mut [u32], answer: &mut [u32]) -> u32 {
    let [number, value, _, why] = expected(case);
    let told =
        if value == 0 { [number, 0, 0, 0] } else { [number, case.value(), case.pattern(), why] };
    tell(answer, told)
}

fn says_no_why(case: &Case, _: &mut [u32], answer: &mut [u32]) -> u32 {
    let [number, value, pattern, _] = expected(case);
    tell(answer, [number, value, pattern, 0])
}

fn sets_a_name(case: &Case, values: &mut [u32], answer: &mut [u32]) -> u32 {
    values.iter_mut().for_each(|value| *value ^= 1);
    right(case, values, answer)
}

/// The cases of `count` in which a wrong subject is found out.
fn found_out(subject: FirstMiss, count: u64) -> u64 {
    let mut comparison = Comparison::new(subject);
    (0..count).for_each(|number| comparison.case(case(1, number)));
    comparison.differing
}

#[test]
fn a_right_subject_agrees_and_wrong_ones_are_found_out() {
    assert_eq!(found_out(right, 2000), 0);
    let wrong: [FirstMiss; 4] = [swaps_the_nodes, tells_the_roots, says_no_why, sets_a_name];
    assert!(wrong.iter().all(|&subject| found_out(subject, 2000) > 100));
}
