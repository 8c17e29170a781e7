//! A reader of JSON, as strict as the tests need: what is no JSON panics.

use std::collections::BTreeMap;
use std::iter::Peekable;
use std::str::Chars;

#[derive(Clone, Debug, PartialEq)]
pub enum Json {
    None,
    Number(u64),
    Text(String),
    List(Vec<Json>),
    Object(BTreeMap<String, Json>),
}

impl Json {
    pub fn read(text: &str) -> Json {
        let mut letters = text.chars().peekable();
        let value = value(&mut letters);
        assert_eq!(letters.next(), None, "more behind it: {text}");
        value
    }

    /// A field of an object.
    pub fn at(&self, name: &str) -> &Json {
        match self {
            Json::Object(fields) => fields.get(name).unwrap_or_else(|| panic!("no {name} in {self:?}")),
            _ => panic!("no object: {self:?}"),
        }
    }

    pub fn number(&self) -> u64 {
        match self {
            Json::Number(number) => *number,
            _ => panic!("no number: {self:?}"),
        }
    }

    pub fn text(&self) -> &str {
        match self {
            Json::Text(text) => text,
            _ => panic!("no text: {self:?}"),
        }
    }

    pub fn list(&self) -> &[Json] {
        match self {
            Json::List(items) => items,
            _ => panic!("no list: {self:?}"),
        }
    }
}

fn value(letters: &mut Peekable<Chars>) -> Json {
    match *letters.peek().expect("a value") {
        'n' => {
            assert!("null".chars().all(|letter| letters.next() == Some(letter)));
            Json::None
        }
        '"' => Json::Text(text(letters)),
        '[' => Json::List(several(letters, ']', value)),
        '{' => {
            let fields = several(letters, '}', |letters| {
                let name = text(letters);
                assert_eq!(letters.next(), Some(':'));
                (name, value(letters))
            });
            let count = fields.len();
            let fields: BTreeMap<String, Json> = fields.into_iter().collect();
            assert_eq!(fields.len(), count, "each name once");
            Json::Object(fields)
        }
        _ => {
            let mut digits = String::new();
            while let Some(digit) = letters.next_if(char::is_ascii_digit) {
                digits.push(digit);
            }
            Json::Number(digits.parse().expect("a number"))
        }
    }
}

fn several<T>(letters: &mut Peekable<Chars>, end: char, one: impl Fn(&mut Peekable<Chars>) -> T) -> Vec<T> {
    letters.next();
    let mut all = Vec::new();
    if letters.next_if_eq(&end).is_some() {
        return all;
    }
    loop {
        all.push(one(letters));
        match letters.next() {
            Some(',') => (),
            Some(letter) if letter == end => return all,
            other => panic!("{other:?} in a list"),
        }
    }
}

fn text(letters: &mut Peekable<Chars>) -> String {
    assert_eq!(letters.next(), Some('"'));
    let mut text = String::new();
    loop {
        match letters.next().expect("the end of a text") {
            '"' => return text,
            '\\' => match letters.next() {
                Some(letter @ ('"' | '\\')) => text.push(letter),
                Some('u') => {
                    let digits: String = letters.take(4).collect();
                    text.push(char::from_u32(u32::from_str_radix(&digits, 16).unwrap()).unwrap());
                }
                other => panic!("{other:?} behind a backslash"),
            },
            letter => {
                assert!(letter >= ' ', "a control letter in a text");
                text.push(letter);
            }
        }
    }
}
