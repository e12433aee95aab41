//! Rules, with the answers that documents 01 and 02 give them.

use super::{trial, Trial};
use crate::sheets::{encode, rule};

/// Rule, names with marks, expected listing with its lines parted by commas.
type Row = (&'static str, &'static [(&'static str, u32)], &'static str);

const BOUND: u32 = 1;
const SAME_SCOPE: u32 = 2;
const GLOBAL: u32 = 16;

/// Document 01, "Rules on trial".
#[rustfmt::skip]
const ON_TRIAL: &[Row] = &[
    ("index [x, x]", &[], "0 0 0 3, 5 3 2 0 0, 1 1 0 0 1, 3 2 0 0 2"),
    ("x := 1", &[("x", SAME_SCOPE)], "17 1 0 0"),
    ("x := 1", &[("x", BOUND)], "0 1 0 1, 1 1 0 0 0"),
    ("1 := 1", &[], "11 1 0 0"),
    ("_ := 1", &[], "0 1 0 1, 2 1 0 0 0"),
    ("x = y", &[], "18 1 0 0"),
    ("_ = y", &[], "0 6 1 0"),
    ("[_] = [x]", &[], "18 1 0 0"),
    ("[x, 1] = [1, x]", &[], "0 4 0 4, 7 4 1 0 0, 1 1 0 0 1, 7 5 1 0 0, 3 2 0 0 1"),
    ("[x] := [1, 2]", &[], "13 5 1 2"),
    ("[x, [y]] := [1, [1, 2]]", &[], "0 1 0 4, 5 4 2 0 0, 1 1 0 0 1, 5 3 1 0 2, 1 2 0 0 1"),
    (r#"{1: x} := {"1": 2}"#, &[], "0 1 0 2, 6 3 1 0 0, 1 2 0 1 1"),
    (r#"pattern {"b": x, "a": x}"#, &[], "0 0 0 3, 6 5 2 0 0, 3 4 0 3 2, 1 2 0 1 1"),
    ("some x, x in xs", &[], "0 1 0 2, 1 3 0 0 0, 1 1 0 0 0"),
    ("some [x] in []", &[], "0 0 0 2, 5 2 1 0 0, 1 1 0 0 1"),
    ("some [x] in [[], [1, 2]]", &[], "13 3 1 0"),
    (r#"{"a": x, "b": y} = {"a": 1, "a": z}"#, &[], "0 4 0 4, 7 7 1 0 0, 1 2 0 0 1, 7 2 1 0 0, 1 9 0 0 1"),
];

/// Other sentences of document 01, its traps among them.
#[rustfmt::skip]
const SENTENCES: &[Row] = &[
    // One side's preview does not see the other's names.
    ("[x] = [x]", &[], "18 1 0 0"),
    // Nothing is looked at after an unknown item.
    (r#"{"a": x, "b": [y]} := {"a": 1, "b": [1, 2]}"#, &[], "0 1 0 4, 6 6 2 0 0, 1 2 0 1 1, 5 5 1 3 2, 1 4 0 0 1"),
    ("[[], [x]] := [[], [1, 2]]", &[], "13 8 1 2"),
    // Left keys are counted without repeats.
    (r#"[{"a": x, "a": y}, 1] = [{"a": 1, "b": 2}, z]"#, &[], "15 5 1 2"),
    (r#"[{"a": x, "a": y}, 1] = [{"a": 2}, z]"#, &[], "0 4 0 4, 7 9 1 0 0, 1 4 0 0 1, 7 6 1 0 0, 1 11 0 0 1"),
    (r#"[{"a": x}, 1] = [{"b": 2}, z]"#, &[], "16 6 0 0"),
    (r#"[{"a": x, "b": y}, 1] = [{"c": 1, "d": 2}, z]"#, &[], "16 8 0 0"),
    ("[[x], 1] = [[1, 2], y]", &[], "12 2 1 2"),
    // 17 comes before 18 and 13.
    (r#"[x] := {"a": 1}"#, &[("x", SAME_SCOPE)], "17 1 0 0"),
    (r#"[x] := {"a": 1}"#, &[], "18 2 0 0"),
    ("[x] := [1, 2]", &[("x", SAME_SCOPE)], "17 1 0 0"),
    // Fields are checked in the value's written order.
    (r#"{"b": [x], "a": [y]} := {"b": [1, 2], "a": [1, 2, 3]}"#, &[], "13 11 1 2"),
    (r#"{"b": [x], "a": [y]} := {"a": [1, 2, 3], "b": [1, 2]}"#, &[], "13 12 1 3"),
    (r#"{"a": [x], "b": [y]} := {"b": [1, 2], "a": [1, 2, 3]}"#, &[], "13 11 1 2"),
    // Repeated value keys of agreeing text.
    (r#"{1: [a], "1": [b]} := {"1": [1, 2], "1": [3]}"#, &[], "13 11 1 2"),
    (r#"{"a": x} := {"b": 1}"#, &[], "14 6 3 0"),
    (r#"[{"a": x}] := [{"b": 1}]"#, &[], "14 7 3 0"),
    ("[1, 2] = [x]", &[], "13 3 1 2"),
    (r#"{"a": 1} = [x]"#, &[], "18 5 0 0"),
    (r#"[{}, x] := [{"a": 1}, [2]]"#, &[], "0 1 0 3, 5 3 2 0 0, 6 1 0 0 1, 1 2 0 0 2"),
    (r#"[{}, [x]] := [{"a": 1}, [1, 2]]"#, &[], "13 10 1 2"),
    // Objects with a computed key are not taken apart in pairs.
    (r#"[{k: x}, 1] = [{"a": 1}, y]"#, &[], "0 4 0 5, 7 8 1 0 0, 6 3 1 0 1, 1 2 0 1 1, 7 4 1 0 0, 1 9 0 0 1"),
    (r#"[{"a": x}, 1] = [{k: 2}, y]"#, &[], "0 4 0 5, 7 8 1 0 0, 6 3 1 0 1, 1 2 0 1 1, 7 4 1 0 0, 1 9 0 0 1"),
    (r#"{k: x} = {"a": y}"#, &[], "18 3 0 0"),
    // A pair where neither side binds is compared, before 12, 15, 16 or 18 come up.
    ("[x, [1], 2] = [1, {}, z]", &[], "0 4 0 6, 7 6 1 0 0, 1 1 0 0 1, 7 7 1 0 0, 3 3 0 0 1, 7 4 1 0 0, 1 8 0 0 1"),
    ("[x, [1], 2] = [1, [1, 2], z]", &[], "0 4 0 6, 7 6 1 0 0, 1 1 0 0 1, 7 9 1 0 0, 3 3 0 0 1, 7 4 1 0 0, 1 10 0 0 1"),
    (r#"[x, {"a": 1}, 2] = [1, {"a": 1, "b": 2}, z]"#, &[], "0 4 0 6, 7 7 1 0 0, 1 1 0 0 1, 7 12 1 0 0, 3 4 0 0 1, 7 5 1 0 0, 1 13 0 0 1"),
    (r#"[x, {"a": 1}, 2] = [1, {"b": 1}, z]"#, &[], "0 4 0 6, 7 7 1 0 0, 1 1 0 0 1, 7 10 1 0 0, 3 4 0 0 1, 7 5 1 0 0, 1 11 0 0 1"),
    // A value's field whose key has the text of another key alone is passed over.
    (r#"[{1: x}, [y]] := [{"1": 2}, [1, 2]]"#, &[], "13 12 1 2"),
    // A computed field of the pattern leaves its object unknown, one of the value is passed over.
    (r#"[{"a": [], k: x}, [y]] := [{"a": []}, [1, 2]]"#, &[],
        "0 1 0 6, 5 8 2 0 0, 6 5 2 0 1, 5 2 0 1 1, 1 4 0 3 2, 5 7 1 0 2, 1 6 0 0 1"),
    ("[{k: x}, [y]] := [{}, [1, 2]]", &[], "0 1 0 5, 5 6 2 0 0, 6 3 1 0 1, 1 2 0 1 1, 5 5 1 0 2, 1 4 0 0 1"),
    (r#"{"a": x} := {"a": 1, k: 2}"#, &[], "0 1 0 2, 6 3 1 0 0, 1 2 0 1 1"),
    // Key texts sorted, with repeats kept.
    ("{2: x, 10: y} := {10: 1, 2: 3}", &[], "0 1 0 3, 6 5 2 0 0, 1 2 0 1 1, 1 4 0 3 2"),
    (r#"{"a": x} := {"a": 1, "a": 2}"#, &[], "14 8 3 0"),
    (r#"{"a": 1, "a": x} := {"a": 2}"#, &[], "0 1 0 2, 6 5 1 0 0, 1 4 0 3 2"),
    // A repeated key keeps the last plan and key node; the lost names stay tracked.
    (r#"pattern {"a": x, `a`: y}"#, &[], "0 0 0 2, 6 5 1 0 0, 1 4 0 3 2"),
    (r#"index [{"a": x, "a": 1}, x]"#, &[], "0 0 0 4, 5 7 2 0 0, 6 5 1 0 1, 4 4 0 3 2, 3 6 0 0 2"),
    (r#"pattern {k: x, "a": y}"#, &[], "0 0 0 3, 6 5 2 0 0, 1 4 0 3 2, 1 2 0 1 1"),
    (r#"pattern {"a": 1, 2: 3, true: 4, null: 5, -1: 6, false: 7}"#, &[],
        "0 0 0 7, 6 13 6 0 0, 4 8 0 7 4, 4 12 0 11 6, 4 6 0 5 3, 4 10 0 9 5, 4 4 0 3 2, 4 2 0 1 1"),
    ("pattern {x}", &[], "0 0 0 1, 3 2 0 0 0"),
    ("pattern f()", &[], "0 0 0 1, 3 1 0 0 0"),
    ("pattern _", &[("_", 4)], "0 0 0 1, 2 1 0 0 0"),
    // Marks 1 and 8; 16; 4 and 16.
    ("index x", &[("x", 9)], "0 0 0 1, 3 1 0 0 0"),
    ("scheduler index x", &[("x", 9)], "0 0 0 1, 1 1 0 0 0"),
    ("index x", &[("x", 16)], "0 0 0 1, 3 1 0 0 0"),
    ("index x", &[("x", 20)], "0 0 0 1, 1 1 0 0 0"),
    ("shadowing pattern x", &[("x", 31)], "0 0 0 1, 1 1 0 0 0"),
    // Validation looks inside sets and passes over input and data.
    ("shadowing parameter {x}", &[("x", BOUND)], "17 1 0 0"),
    ("parameter {x}", &[("x", BOUND)], "0 0 0 1, 3 2 0 0 0"),
    // What the pattern itself plans passes: under AllowShadowing 17 is for names that stand in sets alone.
    ("shadowing parameter [x, {x}]", &[("x", BOUND)], "0 0 0 3, 5 4 2 0 0, 1 1 0 0 1, 3 3 0 0 2"),
    ("shadowing parameter [x, {y}]", &[("x", BOUND), ("y", BOUND)], "17 2 0 0"),
    ("shadowing parameter {input, data}", &[("input", BOUND), ("data", BOUND)], "0 0 0 1, 3 3 0 0 0"),
    ("some x, y in xs", &[("x", BOUND), ("y", BOUND)], "17 3 0 0"),
    ("some [x] in [[1, 2], f()]", &[], "0 0 0 2, 5 2 1 0 0, 1 1 0 0 1"),
    ("some [] in [[1], []]", &[], "0 0 0 1, 5 1 0 0 0"),
    ("x = _", &[], "0 6 2 0"),
    ("_ = _", &[], "0 6 3 0"),
    ("1 = 1", &[], "0 5 0 0"),
    ("x = 1", &[], "0 2 0 1, 1 1 0 0 0"),
    ("1 = x", &[], "0 3 0 1, 1 2 0 0 0"),
];

/// Document 02: numbers from -2^63 to 2^64 - 1, as keys in their order, as key texts and as literals.
#[rustfmt::skip]
const NUMBERS: &[Row] = &[
    ("pattern {18446744073709551615: a, 9223372036854775808: b, -9223372036854775808: c, 9223372036854775807: d, 0: e, -1: f, 1: g}", &[],
        "0 0 0 8, 6 15 7 0 0, 1 6 0 5 3, 1 12 0 11 6, 1 10 0 9 5, 1 14 0 13 7, 1 8 0 7 4, 1 4 0 3 2, 1 2 0 1 1"),
    ("pattern {18446744073709551615: x, 18446744073709551615: y}", &[], "0 0 0 2, 6 5 1 0 0, 1 4 0 3 2"),
    ("pattern {9223372036854775808: x, -9223372036854775808: y}", &[], "0 0 0 3, 6 5 2 0 0, 1 4 0 3 2, 1 2 0 1 1"),
    (r#"{18446744073709551615: x} := {"18446744073709551615": 2}"#, &[], "0 1 0 2, 6 3 1 0 0, 1 2 0 1 1"),
    ("{9223372036854775808: x} := {-9223372036854775808: 1}", &[], "14 6 3 0"),
    ("{9: x, 18446744073709551615: y} := {18446744073709551615: 1, 9: 2}", &[], "0 1 0 3, 6 5 2 0 0, 1 2 0 1 1, 1 4 0 3 2"),
    ("[{18446744073709551615: x}, 1] = [{18446744073709551614: 2}, z]", &[], "16 6 0 0"),
    ("[x, -9223372036854775808] = [18446744073709551615, y]", &[], "0 4 0 4, 7 4 1 0 0, 1 1 0 0 1, 7 2 1 0 0, 1 5 0 0 1"),
];

/// Document 02, slip 10: the careful reading, by scoping 3 and, with shadowing, 4.
#[rustfmt::skip]
const CAREFUL: &[Row] = &[
    ("careful [x, [y]] := [1, [1, 2]]", &[], "13 8 1 2"),
    ("careful shadowing [x, [y]] := [1, [1, 2]]", &[], "13 8 1 2"),
    ("careful [x, [y]] = [1, [1, 2]]", &[], "13 8 1 2"),
    ("careful [1, [1, 2]] = [x, [y]]", &[], "13 4 1 2"),
    ("careful [x, {\"a\": y}] := [1, {\"b\": 2}]", &[], "14 9 4 0"),
    ("careful [_, [1]] := [1, [1, 2]]", &[], "13 8 1 2"),
    // What has no mismatch is planned as in the present reading.
    ("careful [x, [y]] := [1, [2]]", &[], "0 1 0 4, 5 4 2 0 0, 1 1 0 0 1, 5 3 1 0 2, 1 2 0 0 1"),
    ("careful [x, {}] := [1, {\"a\": 1}]", &[], "0 1 0 3, 5 3 2 0 0, 1 1 0 0 1, 6 2 0 0 2"),
    ("careful [x, [y]] := [1, {\"a\": 1}]", &[], "0 1 0 4, 5 4 2 0 0, 1 1 0 0 1, 5 3 1 0 2, 1 2 0 0 1"),
    // The first mismatch met, a nested one before those behind it.
    ("careful [[x, [y]], [z]] := [[1, []], [1, 2]]", &[], "13 9 1 0"),
    ("careful [x, [y], [z]] := [1, 2, [1, 2]]", &[], "13 11 1 2"),
    // Unknown by a computed field, by computed fields alone, by a field without a partner.
    (r#"careful [{"a": [], k: x}, [y]] := [{"a": []}, [1, 2]]"#, &[], "13 14 1 2"),
    ("careful [{k: x}, [y]] := [{}, [1, 2]]", &[], "13 10 1 2"),
    (r#"careful [{1: x}, [y]] := [{"1": 2}, [1, 2]]"#, &[], "13 12 1 2"),
    (r#"careful {k: x, "a": [y]} := {"a": [1, 2]}"#, &[], "13 10 1 2"),
    // A computed key of the value is passed over, a computed field of the pattern looks at nothing.
    (r#"careful {"a": [x]} := {k: 1, "a": [1, 2]}"#, &[], "13 10 1 2"),
    (r#"careful {k: [x], "a": y} := {"a": 1}"#, &[], "0 1 0 4, 6 6 2 0 0, 1 5 0 4 2, 5 3 1 1 1, 1 2 0 0 1"),
    // Fields in plan order, which is key order: the present reading says 13 11 1 2 of the first.
    (r#"careful {"b": [x], "a": [y]} := {"b": [1, 2], "a": [1, 2, 3]}"#, &[], "13 16 1 3"),
    (r#"careful {"a": [x], "b": [y]} := {"b": [1, 2], "a": [1, 2, 3]}"#, &[], "13 16 1 3"),
    (r#"careful {"a": x, "b": [y]} := {"a": 1, "b": [1, 2]}"#, &[], "13 12 1 2"),
    // The last field of a pattern's key, with every value field of an equal key.
    (r#"careful {"a": [x], "a": [y, z]} := {"a": [1]}"#, &[], "13 11 2 1"),
    (r#"careful {"a": [x], "a": [y, z]} := {"a": [1, 2]}"#, &[],
        "0 1 0 4, 6 8 1 0 0, 5 7 2 4 2, 1 5 0 0 1, 1 6 0 0 2"),
    (r#"careful {1: [a], "1": [b]} := {"1": [1, 2], "1": [3]}"#, &[], "13 11 1 2"),
    (r#"careful {1: [a], "1": [b]} := {"1": [3], "1": [1, 2]}"#, &[], "13 14 1 2"),
    (r#"careful {1: [a], "1": [b]} := {"1": [1, 2], 1: [1, 2, 3]}"#, &[], "13 16 1 3"),
    // Partners are equal as keys, not as texts.
    (r#"careful {1: [x]} := {"1": [1, 2]}"#, &[], "0 1 0 3, 6 4 1 0 0, 5 3 1 1 1, 1 2 0 0 1"),
    (r#"careful {`a`: [x]} := {"a": [1, 2]}"#, &[], "13 8 1 2"),
    // Some-in: nothing is refused where an item fits, else the first mismatch.
    ("careful some [x, [y]] in [[1, [1, 2]]]", &[], "13 8 1 2"),
    ("careful some [x, [y]] in [[1, [1, 2]], [1, []], []]", &[], "13 8 1 2"),
    ("careful some [x, [y]] in [[1, [1, 2]], [1, [2]]]", &[], "0 0 0 4, 5 4 2 0 0, 1 1 0 0 1, 5 3 1 0 2, 1 2 0 0 1"),
    ("careful some [x, [y]] in [[1, [1, 2]], f()]", &[], "0 0 0 4, 5 4 2 0 0, 1 1 0 0 1, 5 3 1 0 2, 1 2 0 0 1"),
    ("careful some [x, [y]] in []", &[], "0 0 0 4, 5 4 2 0 0, 1 1 0 0 1, 5 3 1 0 2, 1 2 0 0 1"),
    ("careful some k, [x, [y]] in [[1, [1, 2]]]", &[("x", BOUND)], "17 1 0 0"),
    // Refusals that come before.
    ("careful [x, [y]] := [1, [1, 2]]", &[("x", SAME_SCOPE)], "17 1 0 0"),
    ("careful [1, [2]] := [1, [1, 2]]", &[], "11 4 0 0"),
    (r#"careful [x, [y]] := {"a": 1}"#, &[], "18 4 0 0"),
    (r#"careful {"a": [1, 2]} = [x, [y]]"#, &[], "18 9 0 0"),
    // Pairs, checks and wildcards have no structure check.
    ("careful [x, [y], 1] = [1, [1, 2], z]", &[], "12 3 1 2"),
    ("careful [x, 1] = [1, x]", &[], "0 4 0 4, 7 4 1 0 0, 1 1 0 0 1, 7 5 1 0 0, 3 2 0 0 1"),
    ("careful [1, [1]] = [1, [1, 2]]", &[], "0 5 0 0"),
    ("careful _ = [1, y]", &[], "0 6 1 0"),
    // The other operations read 3 as 1 and 4 as 2.
    ("careful pattern x", &[("x", BOUND)], "0 0 0 1, 3 1 0 0 0"),
    ("careful shadowing pattern x", &[("x", BOUND)], "0 0 0 1, 1 1 0 0 0"),
    ("careful index x", &[("x", BOUND)], "0 0 0 1, 3 1 0 0 0"),
    ("careful shadowing index x", &[("x", BOUND)], "0 0 0 1, 3 1 0 0 0"),
    ("careful parameter {x}", &[("x", BOUND)], "0 0 0 1, 3 2 0 0 0"),
    ("careful shadowing parameter {x}", &[("x", BOUND)], "17 1 0 0"),
    // They read nothing else of it.
    ("careful shadowing some x in xs", &[("x", BOUND)], "17 1 0 0"),
    ("careful shadowing x = 1", &[("x", BOUND)], "0 5 0 0"),
];

/// Smallest inputs where the Rust and the Rego reference differ, beside those above.
#[rustfmt::skip]
const DIFFERENCES: &[Row] = &[
    ("[x, 1] := [2, 1]", &[], "0 1 0 3, 5 3 2 0 0, 1 1 0 0 1, 4 2 0 0 2"),
    ("[x, x] := [1, 1]", &[], "0 1 0 3, 5 3 2 0 0, 1 1 0 0 1, 3 2 0 0 2"),
    ("[x, y] = [y, 1]", &[], "18 1 0 0"),
    ("x := y", &[], "0 1 0 1, 1 1 0 0 0"),
    ("x := _", &[], "0 1 0 1, 1 1 0 0 0"),
    ("{x} = {1}", &[], "0 5 0 0"),
    (r#"{k: v} = {"a": 1}"#, &[], "0 2 0 2, 6 3 1 0 0, 1 2 0 1 1"),
    ("some x in xs", &[("x", GLOBAL)], "17 1 0 0"),
    ("some [x] in [[1, 2]]", &[], "13 5 1 2"),
    ("input := 1", &[], "0 1 0 1, 1 1 0 0 0"),
    (r#"[x] = {"a": 1}"#, &[], "18 2 0 0"),
];

pub fn trials() -> impl Iterator<Item = Trial> {
    [ON_TRIAL, SENTENCES, NUMBERS, CAREFUL, DIFFERENCES].into_iter().flatten().map(of_row)
}

fn of_row((text, scope, expected): &Row) -> Trial {
    let mut rule = rule(text);
    let mut name = text.to_string();
    for (marked, marks) in *scope {
        rule = rule.with_marks(marked, *marks);
        name += &format!(", {marked} marked {marks}");
    }
    trial(&name, &encode(&rule), expected)
}
