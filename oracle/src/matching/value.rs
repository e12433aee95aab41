//! Values and when they are equal.

use std::rc::Rc;

/// A string and a raw string of equal bytes are one literal; the derived order is that of keys.
#[derive(Clone, Debug, PartialEq, Eq, PartialOrd, Ord)]
pub enum Literal {
    Null,
    Bool(bool),
    Number(i128),
    String(Vec<u8>),
}

#[derive(Debug)]
pub enum Value {
    Literal(Literal),
    Array(Vec<Rc<Value>>),
    /// No key stands twice, but in the sides of src/refusals.
    Object(Vec<(Literal, Rc<Value>)>),
}

type Fields = [(Literal, Rc<Value>)];

/// Literals by the order of keys, arrays by length and items, objects by key sets and the value
/// under each key. Where keys repeat, the first value under a key of the other counts.
pub fn equal(one: &Value, other: &Value) -> bool {
    match (one, other) {
        (Value::Literal(one), Value::Literal(other)) => one == other,
        (Value::Array(one), Value::Array(other)) => {
            one.len() == other.len() && one.iter().zip(other).all(|(one, other)| equal(one, other))
        }
        (Value::Object(one), Value::Object(other)) => {
            has_keys_of(one, other) && has_keys_of(other, one) && agree(one, other)
        }
        _ => false,
    }
}

fn has_keys_of(one: &Fields, other: &Fields) -> bool {
    other.iter().all(|(key, _)| under(key, one).is_some())
}

fn agree(one: &Fields, other: &Fields) -> bool {
    let mut pairs = one.iter().map(|(key, value)| (value, under(key, other)));
    pairs.all(|(value, found)| found.is_some_and(|found| equal(value, found)))
}

fn under<'a>(key: &Literal, fields: &'a Fields) -> Option<&'a Value> {
    fields.iter().find(|(own, _)| own == key).map(|(_, value)| &**value)
}

/// The value and all values inside it.
pub fn parts(value: &Rc<Value>) -> Vec<Rc<Value>> {
    let inner: Vec<&Rc<Value>> = match &**value {
        Value::Literal(_) => Vec::new(),
        Value::Array(items) => items.iter().collect(),
        Value::Object(fields) => fields.iter().map(|(_, value)| value).collect(),
    };
    std::iter::once(value.clone()).chain(inner.into_iter().flat_map(parts)).collect()
}

#[cfg(test)]
mod tests {
    use super::*;

    fn number(number: i128) -> Rc<Value> {
        Rc::new(Value::Literal(Literal::Number(number)))
    }

    fn object(fields: &[(&str, i128)]) -> Value {
        let field = |(key, value): &(&str, i128)| (Literal::String((*key).into()), number(*value));
        Value::Object(fields.iter().map(field).collect())
    }

    #[test]
    fn a_number_is_no_string_and_an_array_no_object() {
        let text = Value::Literal(Literal::String(b"1".to_vec()));
        assert!(equal(&number(1), &number(1)) && !equal(&number(1), &text));
        assert!(!equal(&Value::Array(Vec::new()), &Value::Object(Vec::new())));
    }

    #[test]
    fn arrays_by_length_and_items_in_order() {
        let array = |numbers: &[i128]| Value::Array(numbers.iter().map(|&n| number(n)).collect());
        assert!(equal(&array(&[1, 2]), &array(&[1, 2])));
        assert!(!equal(&array(&[1, 2]), &array(&[2, 1])));
        assert!(!equal(&array(&[1, 2]), &array(&[1])) && !equal(&array(&[]), &array(&[1])));
    }

    #[test]
    fn objects_by_key_sets_in_any_order() {
        assert!(equal(&object(&[("a", 1), ("b", 2)]), &object(&[("b", 2), ("a", 1)])));
        assert!(!equal(&object(&[("a", 1), ("b", 2)]), &object(&[("a", 2), ("b", 1)])));
        assert!(!equal(&object(&[("a", 1)]), &object(&[("a", 1), ("b", 1)])));
        assert!(!equal(&object(&[("a", 1), ("b", 1)]), &object(&[("a", 1)])));
        assert!(!equal(&object(&[]), &object(&[("a", 1)])) && equal(&object(&[]), &object(&[])));
    }

    #[test]
    fn the_parts_of_a_value_are_it_and_all_inside() {
        let inner = Rc::new(object(&[("a", 1), ("b", 2)]));
        let whole = Rc::new(Value::Array(vec![inner, number(3)]));
        assert_eq!(parts(&whole).len(), 5);
    }
}
