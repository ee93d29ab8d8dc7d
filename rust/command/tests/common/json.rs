//! Reads JSON strictly: what is not well formed fails the test.

use std::collections::VecDeque;

#[derive(Clone, Debug, PartialEq)]
pub enum Json {
    Null,
    Bool(bool),
    /// Whole numbers only.
    Number(i128),
    Text(String),
    List(Vec<Json>),
    Object(Vec<(String, Json)>),
}

impl Json {
    pub fn get(&self, key: &str) -> &Json {
        let Json::Object(entries) = self else { panic!("no object: {self:?}") };
        entries.iter().find(|(own, _)| own == key).map(|(_, value)| value).unwrap_or_else(|| panic!("no {key}"))
    }

    pub fn keys(&self) -> Vec<&str> {
        let Json::Object(entries) = self else { panic!("no object: {self:?}") };
        entries.iter().map(|(key, _)| key.as_str()).collect()
    }

    pub fn list(&self) -> &[Json] {
        let Json::List(values) = self else { panic!("no list: {self:?}") };
        values
    }

    pub fn number(&self) -> i128 {
        let Json::Number(number) = self else { panic!("no number: {self:?}") };
        *number
    }

    pub fn text(&self) -> &str {
        let Json::Text(text) = self else { panic!("no text: {self:?}") };
        text
    }
}

/// The only value in a text.
pub fn read(text: &str) -> Json {
    let mut rest: VecDeque<char> = text.chars().collect();
    let value = value(&mut rest);
    assert!(rest.iter().all(|c| c.is_ascii_whitespace()), "something follows: {rest:?}");
    value
}

fn space(rest: &mut VecDeque<char>) {
    while rest.front().is_some_and(char::is_ascii_whitespace) {
        rest.pop_front();
    }
}

/// Takes what must come next.
fn expect(rest: &mut VecDeque<char>, text: &str) {
    space(rest);
    text.chars().for_each(|c| assert_eq!(rest.pop_front(), Some(c), "expected {text}"));
}

fn next_is(rest: &mut VecDeque<char>, c: char) -> bool {
    space(rest);
    rest.front() == Some(&c)
}

fn value(rest: &mut VecDeque<char>) -> Json {
    space(rest);
    match rest.front().copied().expect("a value") {
        'n' => {
            expect(rest, "null");
            Json::Null
        }
        't' => {
            expect(rest, "true");
            Json::Bool(true)
        }
        'f' => {
            expect(rest, "false");
            Json::Bool(false)
        }
        '"' => Json::Text(quoted(rest)),
        '[' => Json::List(between(rest, "[", ']', value)),
        '{' => Json::Object(between(rest, "{", '}', |rest| {
            let key = quoted(rest);
            expect(rest, ":");
            (key, value(rest))
        })),
        _ => number(rest),
    }
}

/// Values with commas between them.
fn between<T>(rest: &mut VecDeque<char>, open: &str, close: char, one: fn(&mut VecDeque<char>) -> T) -> Vec<T> {
    let mut values = vec![];
    expect(rest, open);
    while !next_is(rest, close) {
        if !values.is_empty() {
            expect(rest, ",");
            space(rest);
        }
        values.push(one(rest));
    }
    rest.pop_front();
    values
}

fn quoted(rest: &mut VecDeque<char>) -> String {
    expect(rest, "\"");
    let mut text = String::new();
    loop {
        match rest.pop_front().expect("the quotes end") {
            '"' => return text,
            '\\' => text.push(match rest.pop_front().expect("what is escaped") {
                'u' => {
                    let digits: String = (0..4).map(|_| rest.pop_front().expect("four digits")).collect();
                    u32::from_str_radix(&digits, 16).ok().and_then(char::from_u32).expect("a character")
                }
                c @ ('"' | '\\') => c,
                c => panic!("not escaped so: {c}"),
            }),
            c => {
                assert!(!c.is_control(), "a control character stands there");
                text.push(c);
            }
        }
    }
}

fn number(rest: &mut VecDeque<char>) -> Json {
    let mut digits = String::new();
    while rest.front().is_some_and(|c| c.is_ascii_digit() || *c == '-') {
        digits.extend(rest.pop_front());
    }
    Json::Number(digits.parse().unwrap_or_else(|_| panic!("no number: {digits}")))
}
