//! A strict reader of JSON, so that the tests do not believe the program's own writer.

#[derive(Debug, Clone, PartialEq)]
pub enum Value {
    Null,
    Flag(bool),
    Number(u64),
    Text(String),
    List(Vec<Value>),
    Object(Vec<(String, Value)>),
}

impl Value {
    pub fn get(&self, name: &str) -> Option<&Value> {
        match self {
            Value::Object(members) => members
                .iter()
                .find(|(member, _)| member == name)
                .map(|(_, value)| value),
            _ => None,
        }
    }

    pub fn text(&self, name: &str) -> &str {
        match self.get(name) {
            Some(Value::Text(text)) => text,
            other => panic!("{name} is {other:?}"),
        }
    }

    /// A list of texts.
    pub fn texts(&self, name: &str) -> Vec<&str> {
        let Some(Value::List(items)) = self.get(name) else {
            panic!("{name} is {:?}", self.get(name))
        };
        items
            .iter()
            .map(|item| match item {
                Value::Text(text) => &text[..],
                other => panic!("{name} has {other:?}"),
            })
            .collect()
    }

    pub fn number(&self, name: &str) -> Option<u64> {
        match self.get(name) {
            Some(&Value::Number(number)) => Some(number),
            Some(Value::Null) => None,
            other => panic!("{name} is {other:?}"),
        }
    }
}

/// The one value of a text, with nothing behind it but an end of line.
pub fn parse(text: &str) -> Value {
    let mut reader = Reader(text.strip_suffix('\n').unwrap_or(text).chars().peekable());
    let value = reader.value();
    assert_eq!(reader.0.next(), None, "something stands behind the value: {text}");
    value
}

struct Reader<'a>(std::iter::Peekable<std::str::Chars<'a>>);

impl Reader<'_> {
    fn take(&mut self, letters: &str) {
        for letter in letters.chars() {
            assert_eq!(self.0.next(), Some(letter), "{letters} is cut");
        }
    }

    fn value(&mut self) -> Value {
        match self.0.peek().expect("a value") {
            'n' => {
                self.take("null");
                Value::Null
            }
            't' => {
                self.take("true");
                Value::Flag(true)
            }
            'f' => {
                self.take("false");
                Value::Flag(false)
            }
            '"' => Value::Text(self.text()),
            '[' => Value::List(self.items('[', ']', Reader::value)),
            '{' => {
                let members = self.items('{', '}', |reader| {
                    let name = reader.text();
                    reader.take(":");
                    (name, reader.value())
                });
                for (at, (name, _)) in members.iter().enumerate() {
                    assert!(
                        members[..at].iter().all(|(other, _)| other != name),
                        "{name} stands twice"
                    );
                }
                Value::Object(members)
            }
            _ => {
                let mut digits = String::new();
                while let Some(digit) = self.0.next_if(char::is_ascii_digit) {
                    digits.push(digit);
                }
                assert!(digits == "0" || !digits.starts_with('0'), "{digits}");
                Value::Number(digits.parse().expect("a number"))
            }
        }
    }

    fn items<T>(&mut self, open: char, close: char, item: fn(&mut Self) -> T) -> Vec<T> {
        assert_eq!(self.0.next(), Some(open));
        let mut items = Vec::new();
        if self.0.next_if_eq(&close).is_some() {
            return items;
        }
        loop {
            items.push(item(self));
            match self.0.next() {
                Some(',') => {}
                letter => {
                    assert_eq!(letter, Some(close));
                    return items;
                }
            }
        }
    }

    fn text(&mut self) -> String {
        self.take("\"");
        let mut text = String::new();
        loop {
            match self.0.next().expect("the end of a text") {
                '"' => return text,
                '\\' => text.push(match self.0.next() {
                    Some('n') => '\n',
                    Some('r') => '\r',
                    Some('t') => '\t',
                    Some('u') => self.numbered(),
                    Some(letter @ ('"' | '\\')) => letter,
                    letter => panic!("\\{letter:?}"),
                }),
                letter => {
                    assert!(letter >= ' ', "a bare {letter:?}");
                    text.push(letter);
                }
            }
        }
    }

    /// A letter by its number; two numbers give a letter above U+FFFF.
    fn numbered(&mut self) -> char {
        let first = self.unit();
        let mut units = vec![first];
        if (0xd800..0xdc00).contains(&first) {
            self.take("\\u");
            units.push(self.unit());
        }
        String::from_utf16(&units).expect("a letter").chars().next().unwrap()
    }

    fn unit(&mut self) -> u16 {
        let digits: String = (0..4).map(|_| self.0.next().expect("a digit")).collect();
        u16::from_str_radix(&digits, 16).expect("four hex digits")
    }
}
