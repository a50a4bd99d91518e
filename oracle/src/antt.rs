//! Reads the tables of examples in the definitions' files: lists, numbers, quoted texts and applications, and nothing else
//! of the language.

use std::iter::Peekable;
use std::str::Chars;

/// A value of a table.
#[derive(Clone, Debug, PartialEq)]
pub enum Value {
    Number(u64),
    Text(String),
    List(Vec<Value>),
    /// A name, and what it is applied to.
    Applied(String, Vec<Value>),
}

impl Value {
    pub fn number(&self) -> u32 {
        match self {
            Value::Number(n) => *n as u32,
            other => panic!("{other:?} is no number"),
        }
    }

    pub fn text(&self) -> &str {
        match self {
            Value::Text(text) => text,
            other => panic!("{other:?} is no text"),
        }
    }

    pub fn list(&self) -> &[Value] {
        match self {
            Value::List(values) => values,
            other => panic!("{other:?} is no list"),
        }
    }

    /// What a name is applied to.
    pub fn applied(&self) -> (&str, &[Value]) {
        match self {
            Value::Applied(name, values) => (name, values),
            other => panic!("{other:?} is no application"),
        }
    }

    /// A list of lists of numbers.
    pub fn rows(&self) -> Vec<Vec<u32>> {
        self.list().iter().map(|row| row.list().iter().map(Value::number).collect()).collect()
    }
}

/// The table that a file defines under a name: what stands after `NAME =`, up to the next line that is not indented.
pub fn table(source: &str, name: &str) -> Vec<Value> {
    let head = format!("\n{name} =\n");
    let at = source.find(&head).unwrap_or_else(|| panic!("there is no table {name}")) + head.len();
    let mut body = String::new();
    for line in source[at..].lines().take_while(|line| line.starts_with(' ')) {
        if !line.trim_start().starts_with("--") {
            body.push_str(line);
            body.push('\n');
        }
    }
    let mut reader = Reader { chars: body.chars().peekable() };
    let value = reader.cons();
    assert!(reader.next_char().is_none(), "something stands after the table {name}");
    value.list().to_vec()
}

struct Reader<'s> {
    chars: Peekable<Chars<'s>>,
}

impl Reader<'_> {
    /// The next character that is no blank; it is not taken.
    fn next_char(&mut self) -> Option<char> {
        while self.chars.next_if(|c| c.is_whitespace()).is_some() {}
        self.chars.peek().copied()
    }

    fn expect(&mut self, c: char) {
        assert_eq!(self.next_char(), Some(c));
        self.chars.next();
    }

    /// Values with `∷` between them and a list at last, or a single value.
    fn cons(&mut self) -> Value {
        let first = self.application();
        if self.next_char() != Some('∷') {
            return first;
        }
        self.chars.next();
        let Value::List(mut values) = self.cons() else { panic!("a list ends in no list") };
        values.insert(0, first);
        Value::List(values)
    }

    fn application(&mut self) -> Value {
        let first = self.atom().expect("a value");
        let Value::Applied(name, mut values) = first else { return first };
        if values.is_empty() {
            while let Some(value) = self.atom() {
                values.push(value);
            }
        }
        Value::Applied(name, values)
    }

    fn atom(&mut self) -> Option<Value> {
        match self.next_char()? {
            '(' => {
                self.expect('(');
                let value = self.cons();
                self.expect(')');
                Some(value)
            }
            '[' => {
                self.expect('[');
                self.expect(']');
                Some(Value::List(Vec::new()))
            }
            '"' => Some(Value::Text(self.quoted())),
            ')' | '∷' => None,
            _ => {
                let mut word = String::new();
                while let Some(c) = self.chars.next_if(|c| !c.is_whitespace() && !"()[]∷\"".contains(*c)) {
                    word.push(c);
                }
                Some(word.parse().map_or_else(|_| Value::Applied(word, Vec::new()), Value::Number))
            }
        }
    }

    fn quoted(&mut self) -> String {
        self.expect('"');
        let mut text = String::new();
        loop {
            match self.chars.next().expect("a text ends") {
                '"' => return text,
                '\\' => text.push(match self.chars.next().expect("an escape") {
                    'n' => '\n',
                    'r' => '\r',
                    't' => '\t',
                    'u' => {
                        self.expect('{');
                        let mut digits = String::new();
                        while let Some(c) = self.chars.next_if(char::is_ascii_hexdigit) {
                            digits.push(c);
                        }
                        self.expect('}');
                        u32::from_str_radix(&digits, 16).ok().and_then(char::from_u32).expect("a scalar value")
                    }
                    c => c,
                }),
                c => text.push(c),
            }
        }
    }
}
