//! As much of JSON as a configuration needs.
use std::collections::BTreeMap;

/// How deep lists and objects may stand in one another.
const DEEPEST: usize = 127;

#[derive(Debug, Clone, PartialEq)]
pub enum Json {
    Whole(i64),
    Text(String),
    List(Vec<Json>),
    Object(BTreeMap<String, Json>),
    /// A value that no member of a configuration has that a client needs: other numbers, `true`, `false`, `null`.
    Other,
}

/// The value that a text is; None where it is none.
pub fn parse(text: &str) -> Option<Json> {
    let mut parser = Parser { rest: text };
    let value = parser.value(0)?;
    parser.skip_space();
    parser.rest.is_empty().then_some(value)
}

struct Parser<'a> {
    rest: &'a str,
}

impl Parser<'_> {
    fn skip_space(&mut self) {
        self.rest = self.rest.trim_start_matches([' ', '\t', '\n', '\r']);
    }

    /// Whether this comes next; it is passed over then.
    fn comes(&mut self, mark: char) -> bool {
        self.skip_space();
        match self.rest.strip_prefix(mark) {
            Some(rest) => {
                self.rest = rest;
                true
            }
            None => false,
        }
    }

    fn value(&mut self, depth: usize) -> Option<Json> {
        if depth > DEEPEST {
            return None;
        }
        if self.comes('{') {
            self.object(depth)
        } else if self.comes('[') {
            self.list(depth)
        } else if self.comes('"') {
            self.text().map(Json::Text)
        } else {
            self.word()
        }
    }

    fn list(&mut self, depth: usize) -> Option<Json> {
        let mut values = Vec::new();
        if self.comes(']') {
            return Some(Json::List(values));
        }
        loop {
            values.push(self.value(depth + 1)?);
            if self.comes(']') {
                return Some(Json::List(values));
            }
            if !self.comes(',') {
                return None;
            }
        }
    }

    fn object(&mut self, depth: usize) -> Option<Json> {
        let mut members = BTreeMap::new();
        if self.comes('}') {
            return Some(Json::Object(members));
        }
        loop {
            if !self.comes('"') {
                return None;
            }
            let name = self.text()?;
            if !self.comes(':') {
                return None;
            }
            members.insert(name, self.value(depth + 1)?);
            if self.comes('}') {
                return Some(Json::Object(members));
            }
            if !self.comes(',') {
                return None;
            }
        }
    }

    /// A text behind its first quotation mark.
    fn text(&mut self) -> Option<String> {
        let mut text = String::new();
        let mut characters = self.rest.chars();
        loop {
            match characters.next()? {
                '"' => break,
                '\\' => text.push(escaped(&mut characters)?),
                character if character < ' ' => return None,
                character => text.push(character),
            }
        }
        self.rest = characters.as_str();
        Some(text)
    }

    /// A number, or one of the three words.
    fn word(&mut self) -> Option<Json> {
        let end = self.rest.find([',', ']', '}', ' ', '\t', '\n', '\r']).unwrap_or(self.rest.len());
        let (word, rest) = self.rest.split_at(end);
        self.rest = rest;
        if let Ok(number) = word.parse() {
            return Some(Json::Whole(number));
        }
        let is_value = matches!(word, "true" | "false" | "null") || word.parse::<f64>().is_ok();
        is_value.then_some(Json::Other)
    }
}

/// The character that an escape behind its backslash means.
fn escaped(characters: &mut std::str::Chars<'_>) -> Option<char> {
    match characters.next()? {
        'b' => Some('\u{8}'),
        'f' => Some('\u{c}'),
        'n' => Some('\n'),
        'r' => Some('\r'),
        't' => Some('\t'),
        'u' => {
            let digits: String = characters.take(4).collect();
            char::from_u32(u32::from_str_radix(&digits, 16).ok()?)
        }
        character @ ('"' | '\\' | '/') => Some(character),
        _ => None,
    }
}

#[cfg(test)]
mod tests {
    use super::*;

    #[test]
    fn values_are_read() {
        let read = parse(r#" {"a": [1, -2, 1.5, null], "b": "x\n\u0041", "c": {}} "#).unwrap();
        let Json::Object(members) = read else { panic!("no object") };
        assert_eq!(members["a"], Json::List(vec![Json::Whole(1), Json::Whole(-2), Json::Other, Json::Other]));
        assert_eq!(members["b"], Json::Text("x\nA".to_string()));
        assert_eq!(members["c"], Json::Object(BTreeMap::new()));
    }

    #[test]
    fn what_is_none() {
        for text in ["", "{", "[1,]", "{\"a\" 1}", "[1] 2", "\"a", "no", "{1: 2}"] {
            assert_eq!(parse(text), None, "{text}");
        }
        assert_eq!(parse(&"[".repeat(1000)), None);
    }
}
