//! Reads a sheet. Written from document 01, "Sheet", and document 02, and not from the crates.

use super::listing::Refusal;
use super::tables::{Name, Node, Number, Tables};

#[derive(Debug)]
pub struct Sheet<'a> {
    pub operation: u32,
    pub scheduler: bool,
    pub scoping: u32,
    pub first: u32,
    pub second: u32,
    pub key: u32,
    pub tables: Tables<'a>,
}

impl Sheet<'_> {
    /// Document 02: scoping 3 and 4 act as 1 and 2 but for the reading.
    pub fn is_careful(&self) -> bool {
        self.scoping > 2
    }
}

const COLUMN: usize = 6;
const NUMBER_COLUMN: usize = 20;
const UNREADABLE: u32 = 7;
const OVER_A_LIMIT: u32 = 1;

/// Nodes, child entries, numbers, names, string bytes, text bytes.
const LIMITS: [u32; 6] = [512, 512, 256, 128, 8192, 16384];

pub fn read(bytes: &[u8]) -> Result<Sheet<'_>, Refusal> {
    let mut reader = Reader { rest: bytes };
    let counts: [u32; 6] = reader.line().ok_or(Refusal::new(UNREADABLE))?;
    if counts.iter().zip(LIMITS).any(|(&count, limit)| count > limit) {
        return Err(Refusal::new(OVER_A_LIMIT));
    }
    read_rest(reader, counts).ok_or(Refusal::new(UNREADABLE))
}

fn read_rest(mut reader: Reader<'_>, counts: [u32; 6]) -> Option<Sheet<'_>> {
    let [operation, scheduler, scoping, first, second, key] = reader.line()?;
    let listed = (1..=6).contains(&operation) && scheduler <= 1 && (1..=4).contains(&scoping);
    let [nodes, children, numbers, names, strings, text] = counts.map(|count| count as usize);
    let tables = Tables {
        nodes: reader.lines(nodes, Reader::node)?,
        children: reader.lines(children, |reader| reader.line().map(|[child]| child))?,
        numbers: reader.lines(numbers, Reader::number)?,
        names: reader.lines(names, Reader::name)?,
        strings: reader.take(strings)?,
        text: reader.take(text)?,
    };
    (listed && reader.rest.is_empty()).then_some(Sheet {
        operation,
        scheduler: scheduler == 1,
        scoping,
        first,
        second,
        key,
        tables,
    })
}

struct Reader<'a> {
    rest: &'a [u8],
}

impl<'a> Reader<'a> {
    fn take(&mut self, length: usize) -> Option<&'a [u8]> {
        let (taken, rest) = self.rest.split_at_checked(length)?;
        self.rest = rest;
        Some(taken)
    }

    fn line_feed(&mut self) -> Option<()> {
        (self.take(1)? == b"\n").then_some(())
    }

    /// A line of N columns of six.
    fn line<const N: usize>(&mut self) -> Option<[u32; N]> {
        let mut columns = [0; N];
        for column in &mut columns {
            *column = decimal(justified(self.take(COLUMN)?))?;
        }
        self.line_feed()?;
        Some(columns)
    }

    fn lines<T>(&mut self, count: usize, read: impl Fn(&mut Self) -> Option<T>) -> Option<Vec<T>> {
        let mut lines = Vec::with_capacity(count);
        for _ in 0..count {
            lines.push(read(self)?);
        }
        Some(lines)
    }

    fn node(&mut self) -> Option<Node> {
        let [kind, start, end, first, count] = self.line()?;
        Some(Node { kind, start, end, first, count })
    }

    fn name(&mut self) -> Option<Name> {
        let [start, length, marks] = self.line()?;
        (marks <= 31).then_some(Name { start, length, marks })
    }

    fn number(&mut self) -> Option<Number> {
        let number = signed(justified(self.take(NUMBER_COLUMN)?))?;
        self.line_feed()?;
        Some(number)
    }
}

/// What stands in a column after the blanks in front.
fn justified(column: &[u8]) -> &[u8] {
    let blanks = column.iter().take_while(|&&byte| byte == b' ').count();
    &column[blanks..]
}

fn digits(bytes: &[u8]) -> Option<&[u8]> {
    let plain = match bytes {
        [] => false,
        [b'0', _, ..] => false,
        _ => bytes.iter().all(u8::is_ascii_digit),
    };
    plain.then_some(bytes)
}

fn decimal(bytes: &[u8]) -> Option<u32> {
    let value = |sum, digit: &u8| 10 * sum + u32::from(digit - b'0');
    digits(bytes).map(|digits| digits.iter().fold(0, value))
}

fn wide_decimal(bytes: &[u8]) -> Option<u64> {
    let value = |sum: u128, digit: &u8| 10 * sum + u128::from(digit - b'0');
    digits(bytes)?.iter().fold(0, value).try_into().ok()
}

/// A sign and a size of 64 bits; whether there is such a number is a question of the table rules.
fn signed(bytes: &[u8]) -> Option<Number> {
    let (below_zero, size) = match bytes {
        [b'-', size @ ..] => (true, size),
        _ => (false, bytes),
    };
    Some(Number { below_zero, size: wide_decimal(size)? })
}

#[cfg(test)]
mod tests {
    use super::*;

    const EXAMPLE: &str = concat!(
        "     3     2     0     1     0     6\n",
        "     5     0     1     3     0     0\n",
        "     6     1     2     1     0\n",
        "     6     4     5     1     0\n",
        "     7     0     6     0     2\n",
        "     1\n",
        "     2\n",
        "     1     1     0\n",
        "[x, x]",
    );

    fn number_of(sheet: &str) -> u32 {
        read(sheet.as_bytes()).err().map_or(0, |refusal| refusal.number)
    }

    fn with(from: &str, to: &str) -> u32 {
        assert!(EXAMPLE.contains(from));
        number_of(&EXAMPLE.replacen(from, to, 1))
    }

    #[test]
    fn the_example_of_document_01() {
        let sheet = read(EXAMPLE.as_bytes()).expect("the example is a sheet");
        assert_eq!((sheet.operation, sheet.scheduler, sheet.scoping), (5, false, 1));
        assert_eq!((sheet.first, sheet.second, sheet.key), (3, 0, 0));
        assert_eq!(sheet.tables.nodes.len(), 3);
        assert_eq!(sheet.tables.children, [1, 2]);
        assert_eq!(sheet.tables.text, b"[x, x]");
    }

    #[test]
    fn every_shorter_or_longer_sheet_is_broken() {
        for end in 0..EXAMPLE.len() {
            assert_eq!(number_of(&EXAMPLE[..end]), UNREADABLE, "cut at {end}");
        }
        assert_eq!(number_of(&format!("{EXAMPLE}\n")), UNREADABLE);
    }

    #[test]
    fn columns() {
        assert_eq!(with("     3     2", "    03     2"), UNREADABLE);
        assert_eq!(with("     3     2", "           2"), UNREADABLE);
        assert_eq!(with("     3     2", "3          2"), UNREADABLE);
        assert_eq!(with("     3     2", "    +3     2"), UNREADABLE);
        assert_eq!(with("     3     2", "\t    3     2"), UNREADABLE);
        assert_eq!(with("     7     0     6", "     7    -0     6"), UNREADABLE);
        assert_eq!(with("     7     0     6", "     7    00     6"), UNREADABLE);
        assert_eq!(with("     2\n     1", "     2\r     1"), UNREADABLE);
    }

    #[test]
    fn line_1_goes_before_limits_and_limits_before_the_rest() {
        let over = "   513     0     0     0     0     0";
        assert_eq!(number_of(over), UNREADABLE);
        assert_eq!(number_of(&format!("{over}\n")), OVER_A_LIMIT);
        assert_eq!(number_of(&format!("{over}\nnothing")), OVER_A_LIMIT);
        assert_eq!(number_of("   512   512   256   128  819216384\n"), UNREADABLE);
        assert_eq!(number_of("     0     0     0   129     0     0\n"), OVER_A_LIMIT);
    }

    #[test]
    fn words_that_are_not_listed() {
        assert_eq!(with("     5     0     1", "     0     0     1"), UNREADABLE);
        assert_eq!(with("     5     0     1", "     7     0     1"), UNREADABLE);
        assert_eq!(with("     5     0     1", "     5     2     1"), UNREADABLE);
        assert_eq!(with("     5     0     1", "     5     0     0"), UNREADABLE);
        assert_eq!(with("     5     0     1", "     5     0     3"), 0);
        assert_eq!(with("     5     0     1", "     5     0     4"), 0);
        assert_eq!(with("     5     0     1", "     5     0     5"), UNREADABLE);
        assert_eq!(with("     1     1     0\n[", "     1     1    31\n["), 0);
        assert_eq!(with("     1     1     0\n[", "     1     1    32\n["), UNREADABLE);
    }

    #[test]
    fn numbers() {
        let numbers = |column: &str| {
            let head =
                "     0     0     1     0     0     0\n     1     0     1     0     0     0\n";
            let sheet = format!("{head}{column:>20}\n");
            read(sheet.as_bytes()).ok().map(|sheet| sheet.tables.numbers[0])
        };
        let number = |below_zero, size| Some(Number { below_zero, size });
        assert_eq!(numbers("0"), number(false, 0));
        assert_eq!(numbers("-1"), number(true, 1));
        assert_eq!(numbers("18446744073709551615"), number(false, u64::MAX));
        assert_eq!(numbers("-9223372036854775808"), number(true, 1 << 63));
        assert_eq!(numbers("-0"), number(true, 0));
        assert_eq!(numbers("-9999999999999999999"), number(true, 9_999_999_999_999_999_999));
        for broken in ["", "-", "-00", "-01", "00", "+1", "1 ", "- 1", "1.0", "--1"] {
            assert_eq!(numbers(broken), None, "{broken}");
        }
        for outside in ["18446744073709551616", "99999999999999999999"] {
            assert_eq!(numbers(outside), None, "{outside}");
        }
    }
}
