//! A kitchen of twenty cabinets of fifteen parts: a sheet for each part, with the part's joint rule.

use oracle::sheets::{encode, rule, Draft};

const RULES: &str = include_str!("../../kitchen.txt");

/// Widths of the cabinets, in mm.
const WIDTHS: [i64; 20] = [
    600, 600, 450, 900, 800, 300, 600, 600, 400, 500, 900, 1000, 600, 450, 450, 800, 600, 300, 500,
    1200,
];

pub fn drafts() -> Vec<Draft> {
    let parts: Vec<Part> = RULES.lines().filter_map(Part::read).collect();
    let cabinets = WIDTHS.iter().enumerate().map(|(number, &width)| measures(number, width));
    cabinets
        .flat_map(|cabinet| parts.iter().map(move |part| part.draft(&cabinet)).collect::<Vec<_>>())
        .collect()
}

type Measures = [(&'static str, i64); 7];

/// Wall cabinets stand between the base cabinets, and have thinner sides.
fn measures(number: usize, width: i64) -> Measures {
    let (thickness, height, depth) = if number % 3 == 2 { (16, 900, 330) } else { (18, 720, 560) };
    [
        ("$thickness", thickness),
        ("$height", height),
        ("$depth", depth),
        ("$inner", width - 2 * thickness),
        ("$door", width / 2 - 3),
        ("$hinge", height - 100),
        ("$runner", depth - 60),
    ]
}

struct Part {
    marks: Vec<(&'static str, u32)>,
    rule: &'static str,
}

impl Part {
    /// None for a comment.
    fn read(line: &'static str) -> Option<Self> {
        if line.starts_with('#') {
            return None;
        }
        let mut columns = line.splitn(3, '|').skip(1);
        let (marks, rule) = (columns.next()?, columns.next()?.trim());
        let words: Vec<&str> = marks.split_whitespace().collect();
        let mark = |pair: &[&'static str]| (pair[0], pair[1].parse().expect("marks"));
        Some(Self { marks: words.chunks_exact(2).map(mark).collect(), rule })
    }

    fn draft(&self, cabinet: &Measures) -> Draft {
        let fill =
            |text: String, (word, value): &(&str, i64)| text.replace(word, &value.to_string());
        let text = cabinet.iter().fold(self.rule.to_string(), fill);
        let marked = self.marks.iter();
        encode(&marked.fold(rule(&text), |rule, (name, marks)| rule.with_marks(name, *marks)))
    }
}
