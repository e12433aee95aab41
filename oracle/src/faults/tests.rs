//! The comparison finds no fault in a call that does as expected, and finds those that are put in.

use super::calls::TableFault;
use super::comparison::Comparison;
use super::generate::{case, Case};
use super::reading::expected;

fn put(answer: &mut [u32], words: [u32; 4]) -> u32 {
    answer.iter_mut().zip(words).for_each(|(place, word)| *place = word);
    words[0]
}

fn sound(case: &Case, answer: &mut [u32]) -> u32 {
    put(answer, expected(case))
}

fn differing(subject: TableFault) -> u64 {
    let mut comparison = Comparison::new(subject);
    for number in 0..3_000 {
        let (case, room) = case(1, number);
        comparison.case(&case, room);
    }
    comparison.differing
}

#[test]
fn sound_calls_agree() {
    assert_eq!(differing(sound), 0);
}

#[test]
fn wrong_calls_are_found_out() {
    let wrong: [TableFault; 4] = [
        // A place from 0; the rule and the place swapped; all rules' numbers 2; marks of 32 let pass.
        |case, answer| {
            let [number, rule, place, _] = expected(case);
            put(answer, [number, rule, place.saturating_sub(1), 0])
        },
        |case, answer| {
            let [number, rule, place, _] = expected(case);
            put(answer, [number, place, rule, 0])
        },
        |case, answer| {
            let [number, rule, place, _] = expected(case);
            put(answer, [number.min(2), rule, place, 0])
        },
        |case, answer| {
            let mut case = case.clone();
            case.marks.iter_mut().for_each(|mark| *mark -= u8::from(*mark == 32));
            sound(&case, answer)
        },
    ];
    for subject in wrong {
        assert_ne!(differing(subject), 0);
    }
}
