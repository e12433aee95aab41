//! The layout of a sheet, broken in one place.

use super::{listing, Trial};

/// The example of document 01 with a number that no node uses.
const SHEET: &str = concat!(
    "     3     2     1     1     0     6\n",
    "     5     0     1     3     0     0\n",
    "     6     1     2     1     0\n",
    "     6     4     5     1     0\n",
    "     7     0     6     0     2\n",
    "     1\n",
    "     2\n",
    "                  10\n",
    "     1     1     0\n",
    "[x, x]",
);
const PLAN: &str = "0 0 0 3, 5 3 2 0 0, 1 1 0 0 1, 3 2 0 0 2";
const OVER: &str = "1 0 0 0";
const NO_NUMBER: &str = "2 0 0 0";
const BROKEN: &str = "7 0 0 0";

/// Name, a part of the sheet, what stands there, the answer.
type Edit = (&'static str, &'static str, &'static str, &'static str);

#[rustfmt::skip]
const EDITS: &[Edit] = &[
    ("a sheet", "", "", PLAN),
    ("leading zero on line 1", "     3     2", "    03     2", BROKEN),
    ("leading zero further on", "     7     0", "    07     0", BROKEN),
    ("two zeros", "     7     0", "     7    00", BROKEN),
    ("-0 in a column of six", "     7     0", "     7    -0", BROKEN),
    ("-1 in a column of six", "     7     0", "     7    -1", BROKEN),
    ("+1", "     7     0", "    +7     0", BROKEN),
    ("blank column", "     7     0", "           0", BROKEN),
    ("number to the left", "     7     0", "7          0", BROKEN),
    ("tab for a blank", "     7     0", "\t    7     0", BROKEN),
    ("blank inside a number", "     7     0", "   7 7     0", BROKEN),
    ("CR for LF", "     2\n", "     2\r", BROKEN),
    ("CR before LF", "     2\n", "     2\r\n", BROKEN),
    ("byte after the text", "[x, x]", "[x, x]\n", BROKEN),
    ("text a byte short", "[x, x]", "[x, x", BROKEN),
    ("operation 0", "     5     0     1     3", "     0     0     1     3", BROKEN),
    ("operation 7", "     5     0     1     3", "     7     0     1     3", BROKEN),
    ("scheduler 2", "     5     0     1     3", "     5     2     1     3", BROKEN),
    ("scoping 0, not read", "     5     0     1     3", "     5     0     0     3", BROKEN),
    ("scoping 3, not read", "     5     0     1     3", "     5     0     3     3", PLAN),
    ("scoping 4, not read", "     5     0     1     3", "     5     0     4     3", PLAN),
    ("scoping 5, not read", "     5     0     1     3", "     5     0     5     3", BROKEN),
    ("marks 31", "     1     1     0\n", "     1     1    31\n", PLAN),
    ("marks 32", "     1     1     0\n", "     1     1    32\n", BROKEN),
    ("roots that index does not use", "     3     0     0\n", "     3999999999999\n", PLAN),
    ("-0", "                  10\n", "                  -0\n", NO_NUMBER),
    ("-1", "                  10\n", "                  -1\n", PLAN),
    ("-01", "                  10\n", "                 -01\n", BROKEN),
    ("- alone", "                  10\n", "                   -\n", BROKEN),
    ("above the signed range", "                  10\n", " 9223372036854775808\n", PLAN),
    ("the highest number", "                  10\n", "18446744073709551615\n", PLAN),
    ("one above", "                  10\n", "18446744073709551616\n", BROKEN),
    ("the highest of twenty digits", "                  10\n", "99999999999999999999\n", BROKEN),
    ("the lowest number", "                  10\n", "-9223372036854775808\n", PLAN),
    ("one below", "                  10\n", "-9223372036854775809\n", NO_NUMBER),
    ("the lowest of the column", "                  10\n", "-9999999999999999999\n", NO_NUMBER),
    ("513 nodes told", "     3     2     1", "   513     2     1", OVER),
    ("513 child entries told", "     3     2     1", "     3   513     1", OVER),
    ("257 numbers told", "     3     2     1", "     3     2   257", OVER),
    ("129 names told", "     1     0     6\n", "   129     0     6\n", OVER),
    ("8193 string bytes told", "     1     0     6\n", "     1  8193     6\n", OVER),
    ("16385 text bytes told", "     1     0     6\n", "     1     0 16385\n", OVER),
    ("512 nodes told", "     3     2     1", "   512     2     1", BROKEN),
    ("over a limit and no operation", "     6\n     5     0", "999999\n     9     0", OVER),
    ("over a limit and a leading zero", "     3     2     1", "   513    02     1", BROKEN),
];

pub fn trials() -> Vec<Trial> {
    let line_1 = &SHEET[..36];
    let over = line_1.replace("     3     2", "   513     2");
    let ends = [
        ("no bytes", String::new(), BROKEN),
        ("line 1 without its LF", line_1.into(), BROKEN),
        ("line 1 alone", format!("{line_1}\n"), BROKEN),
        ("line 1 over a limit without its LF", over.clone(), BROKEN),
        ("line 1 over a limit alone", format!("{over}\n"), OVER),
    ];
    let ends = ends.into_iter().map(|(name, sheet, expected)| trial(name, sheet, expected));
    EDITS.iter().map(edited).chain(ends).collect()
}

fn edited(&(name, from, to, expected): &Edit) -> Trial {
    assert!(SHEET.contains(from), "{name}");
    trial(name, SHEET.replacen(from, to, 1), expected)
}

fn trial(name: &str, sheet: String, expected: &str) -> Trial {
    Trial { name: name.into(), sheet: sheet.into(), expected: listing(expected) }
}
