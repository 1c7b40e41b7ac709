//! Values of JSON as text, on one line.

use std::fmt::Display;

/// Members stay in the order in which they are given.
pub fn object(members: &[(&str, String)]) -> String {
    let members = members
        .iter()
        .map(|(name, value)| format!("{}: {value}", string(name)));
    format!("{{{}}}", members.collect::<Vec<_>>().join(", "))
}

pub fn array(values: &[String]) -> String {
    format!("[{}]", values.join(", "))
}

pub fn string(text: &str) -> String {
    let escaped = text.chars().map(|character| match character {
        '"' | '\\' => format!("\\{character}"),
        '\0'..=' ' if character != ' ' => format!("\\u{:04x}", u32::from(character)),
        _ => character.to_string(),
    });
    format!("\"{}\"", escaped.collect::<String>())
}

/// What is written as a number is, or null.
pub fn number_or_null(number: Option<impl Display>) -> String {
    number.map_or("null".to_string(), |number| number.to_string())
}

pub fn string_or_null(text: Option<impl Display>) -> String {
    number_or_null(text.map(|text| string(&text.to_string())))
}

#[cfg(test)]
mod tests {
    use super::*;

    #[test]
    fn values_as_text() {
        let one = object(&[
            ("b", number_or_null(Some(-5))),
            ("a", string_or_null(Some("x"))),
        ]);
        assert_eq!(one, "{\"b\": -5, \"a\": \"x\"}");
        assert_eq!(
            array(&[one.clone(), one.clone()]),
            format!("[{one}, {one}]")
        );
        assert_eq!((object(&[]), array(&[])), ("{}".into(), "[]".into()));
        let none: Option<&str> = None;
        assert_eq!(
            (number_or_null(none), string_or_null(none)),
            ("null".into(), "null".into())
        );
    }

    #[test]
    fn strings_are_escaped() {
        for (text, due) in [
            ("", "\"\""),
            ("it's a bank", "\"it's a bank\""),
            ("a\"b\\c/", "\"a\\\"b\\\\c/\""),
            ("a\nb\t\0\u{1f} ", "\"a\\u000ab\\u0009\\u0000\\u001f \""),
            ("caf\u{e9}\u{7f}", "\"caf\u{e9}\u{7f}\""),
        ] {
            assert_eq!(string(text), due);
        }
    }
}
