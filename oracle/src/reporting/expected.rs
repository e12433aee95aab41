//! What documents 01 and 02 say of a names report.

use crate::answer::ENTRY_WORDS;
use crate::matching::case::Case;
use crate::matching::expected::{alone, plan_first};
use crate::matching::reading::{expr, is_node, Expr};
use crate::sheets::draft::FIRST;
use std::collections::BTreeSet;

/// Bind, the kind of an entry.
const BIND: u32 = 1;

/// The list, or a refusal's number, place and counts.
pub fn expected(case: &Case) -> Result<Vec<u32>, [u32; 4]> {
    let refuse = |refused: bool, number: u32| if refused { Err(alone(number)) } else { Ok(()) };
    let plan = plan_first(case)?;
    refuse(!is_node(case, case.pattern()), 5)?;
    refuse(case.values.len() < case.draft.names.len(), 20)?;
    let mut list = vec![0; case.values.len()];
    let mut names = BTreeSet::new();
    met(&expr(case, case.pattern()), &mut names);
    names.into_iter().for_each(|name| list[name as usize - 1] = 2);
    for entry in plan.chunks(ENTRY_WORDS).filter(|entry| entry[0] == BIND) {
        let name = case.draft.nodes[entry[1] as usize - 1][FIRST];
        list[name as usize - 1] = 1;
    }
    Ok(list)
}

/// The names that are met through arrays and object values, and those that are keys there.
fn met(pattern: &Expr, names: &mut BTreeSet<u32>) {
    match pattern {
        Expr::Name(name) => {
            names.insert(*name);
        }
        Expr::Array(items) => items.iter().for_each(|item| met(item, names)),
        Expr::Object(fields) => {
            for (key, value) in fields {
                if let Expr::Name(name) = key {
                    names.insert(*name);
                }
                met(value, names);
            }
        }
        _ => {}
    }
}

#[cfg(test)]
mod tests {
    use super::*;
    use crate::sheets::{encode, rule};

    /// What is said of k and of v, each 0 if it has no number.
    fn told(text: &str, marks_of_k: u8) -> [u32; 2] {
        let mut case = Case::new(encode(&rule(&format!("pattern {text}"))));
        let place = |case: &Case, name: &[u8]| (case.name_number(name) as usize).checked_sub(1);
        if let Some(k) = place(&case, b"k") {
            case.marks[k] = marks_of_k;
        }
        let list = expected(&case).expect("it is reported");
        let said = |name: &[u8]| place(&case, name).map_or(0, |place| list[place]);
        [said(b"k"), said(b"v")]
    }

    #[test]
    fn computed_keys_are_reported() {
        assert_eq!(told("{k: v}", 0), [2, 1]);
        assert_eq!(told("{k: v}", 1), [2, 1]);
        assert_eq!(told("{k: k}", 0), [1, 0]);
        assert_eq!(told("{k: k}", 1), [2, 0]);
        assert_eq!(told("[k, {k: v}]", 0), [1, 1]);
        assert_eq!(told("[{k: v}, k]", 0), [1, 1]);
        assert_eq!(told(r#"{"a": {k: 1}, "a": 2}"#, 0), [2, 0]);
        assert_eq!(told("{_: v}", 0), [0, 1]);
        assert_eq!(told("{[k]: v}", 0), [0, 1]);
    }
}
