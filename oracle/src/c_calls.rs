//! The calls of crate c_calls over tables, where its library was linked (see build.rs).

use crate::parties::words::Words;

/// A call by its name, and what it takes after the six tables, in C's order: `name` is a number,
/// `name: [type]` a range. All ranges may be written, so that a change to one that is only to be
/// read would be seen.
macro_rules! over_tables {
    ($call:ident($($taken:tt)*)) => {
        over_tables!(@ $call [] [] [] $($taken)*);
    };
    (@ $call:ident [$($c:tt)*] [$($rust:tt)*] [$($lent:tt)*] $range:ident: [$kind:ty], $($rest:tt)*) => {
        over_tables!(
            @ $call
            [$($c)* $range: *mut $kind, _: usize,]
            [$($rust)* $range: &mut [$kind],]
            [$($lent)* $range.as_mut_ptr(), $range.len(),]
            $($rest)*
        );
    };
    (@ $call:ident [$($c:tt)*] [$($rust:tt)*] [$($lent:tt)*] $number:ident, $($rest:tt)*) => {
        over_tables!(
            @ $call [$($c)* $number: u32,] [$($rust)* $number: u32,] [$($lent)* $number,] $($rest)*
        );
    };
    (@ $call:ident [$($c:tt)*] [$($rust:tt)*] [$($lent:tt)*]) => {
        #[rustfmt::skip]
        #[allow(clippy::too_many_arguments)]
        pub fn $call(tables: &mut Words, $($rust)*) -> u32 {
            extern "C" {
                fn $call(
                    nodes: *mut u32, _: usize, children: *mut u32, _: usize,
                    numbers: *mut u64, _: usize, names: *mut u32, _: usize,
                    strings: *mut u8, _: usize, text: *mut u8, _: usize,
                    $($c)*
                ) -> u32;
            }
            let Words { nodes, children, numbers, names, strings, text } = tables;
            // SAFETY: all ranges are lent for the call, and all may be written.
            unsafe {
                $call(
                    nodes.as_mut_ptr(), nodes.len(), children.as_mut_ptr(), children.len(),
                    numbers.as_mut_ptr(), numbers.len(), names.as_mut_ptr(), names.len(),
                    strings.as_mut_ptr(), strings.len(), text.as_mut_ptr(), text.len(),
                    $($lent)*
                )
            }
        }
    };
}

over_tables!(teluddru_plan(
    marks: [u8], operation, scheduler, scoping, first, second, key, version,
    plan: [u32], answer: [u32],
));
over_tables!(teluddru_plan_body(marks: [u8], scheduler, lines: [u32], plan: [u32], answer: [u32],));
over_tables!(teluddru_run(
    marks: [u8], scheduler, scoping, pattern, value, values: [u32], plan: [u32], answer: [u32],
));
over_tables!(teluddru_first_miss(
    marks: [u8], scheduler, scoping, pattern, value, values: [u32], answer: [u32],
));
over_tables!(teluddru_run_with_tolerance(
    marks: [u8], scheduler, scoping, pattern, value,
    values: [u32], lowest: [u64], highest: [u64], plan: [u32], answer: [u32],
));
over_tables!(teluddru_common_example(
    first_marks: [u8], first_scheduler, first_scoping, first_pattern, first_values: [u32],
    second_marks: [u8], second_scheduler, second_scoping, second_pattern, second_values: [u32],
    example_nodes: [u32], example_children: [u32], answer: [u32],
));
over_tables!(teluddru_names_report(
    marks: [u8], scheduler, scoping, pattern, list: [u32], answer: [u32],
));
over_tables!(teluddru_add_name(used, start, length, answer: [u32],));
over_tables!(teluddru_table_fault(marks: [u8], answer: [u32],));
