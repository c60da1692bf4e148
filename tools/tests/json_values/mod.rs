//! JSON values, and what a schema says of them: as much of both as the program and its schema use.

use std::collections::BTreeMap;

#[derive(Clone, Debug, PartialEq)]
pub enum Value {
    Truth(bool),
    Number(i64),
    Text(String),
    List(Vec<Value>),
    Object(BTreeMap<String, Value>),
}

impl Value {
    /// The value that a text is.
    pub fn read(text: &str) -> Value {
        let mut reader = Reader { left: text };
        let value = reader.value();
        assert_eq!(reader.left.trim(), "", "behind the value");
        value
    }

    pub fn object(&self) -> &BTreeMap<String, Value> {
        let Value::Object(fields) = self else { panic!("{self:?} is no object") };
        fields
    }

    pub fn list(&self) -> &[Value] {
        let Value::List(values) = self else { panic!("{self:?} is no list") };
        values
    }

    pub fn text(&self) -> &str {
        let Value::Text(text) = self else { panic!("{self:?} is no text") };
        text
    }

    fn number(&self) -> i64 {
        let Value::Number(number) = self else { panic!("{self:?} is no number") };
        *number
    }

    fn type_name(&self) -> &'static str {
        match self {
            Value::Truth(_) => "boolean",
            Value::Number(_) => "integer",
            Value::Text(_) => "string",
            Value::List(_) => "array",
            Value::Object(_) => "object",
        }
    }
}

struct Reader<'a> {
    left: &'a str,
}

impl Reader<'_> {
    fn value(&mut self) -> Value {
        self.left = self.left.trim_start();
        match self.left.chars().next() {
            Some('{') => Value::Object(self.several('}', Reader::field).into_iter().collect()),
            Some('[') => Value::List(self.several(']', Reader::value)),
            Some('"') => Value::Text(self.string()),
            Some('t') => self.word("true", Value::Truth(true)),
            Some('f') => self.word("false", Value::Truth(false)),
            _ => self.number(),
        }
    }

    fn word(&mut self, word: &str, value: Value) -> Value {
        self.expect(word);
        value
    }

    fn number(&mut self) -> Value {
        let end = self.left.find(|c: char| !c.is_ascii_digit()).unwrap_or(self.left.len());
        let (digits, left) = self.left.split_at(end);
        self.left = left;
        Value::Number(digits.parse().unwrap_or_else(|_| panic!("a value at {left:?}")))
    }

    fn field(&mut self) -> (String, Value) {
        self.left = self.left.trim_start();
        let name = self.string();
        self.expect(":");
        (name, self.value())
    }

    /// What stands between brackets, with commas between.
    fn several<T>(&mut self, end: char, one: fn(&mut Self) -> T) -> Vec<T> {
        self.left = &self.left[1..];
        let mut found = vec![];
        while !self.took(end) {
            if !found.is_empty() {
                self.expect(",");
            }
            found.push(one(self));
        }
        found
    }

    fn string(&mut self) -> String {
        self.expect("\"");
        let mut text = String::new();
        loop {
            match self.character() {
                '"' => return text,
                '\\' => text.push(self.escaped()),
                character => text.push(character),
            }
        }
    }

    fn escaped(&mut self) -> char {
        match self.character() {
            'n' => '\n',
            't' => '\t',
            'r' => '\r',
            'u' => {
                let digits: String = (0..4).map(|_| self.character()).collect();
                u32::from_str_radix(&digits, 16).ok().and_then(char::from_u32).unwrap()
            }
            character @ ('"' | '\\') => character,
            other => panic!("`\\{other}` is no escape"),
        }
    }

    fn character(&mut self) -> char {
        let character = self.left.chars().next().expect("a character more");
        self.left = &self.left[character.len_utf8()..];
        character
    }

    fn took(&mut self, end: char) -> bool {
        self.left = self.left.trim_start();
        let left = self.left.strip_prefix(end);
        self.left = left.unwrap_or(self.left);
        left.is_some()
    }

    fn expect(&mut self, word: &str) {
        self.left = self.left.trim_start();
        let left = self.left.strip_prefix(word);
        self.left = left.unwrap_or_else(|| panic!("expected {word:?} at {:?}", self.left));
    }
}

/// A schema and its definitions.
pub struct Schema {
    whole: Value,
}

impl Schema {
    pub fn read(text: &str) -> Schema {
        Schema { whole: Value::read(text) }
    }

    /// What the schema does not allow in a value.
    pub fn faults(&self, value: &Value) -> Vec<String> {
        self.faults_by(&self.whole, value)
    }

    fn faults_by(&self, schema: &Value, value: &Value) -> Vec<String> {
        let by = |(word, says)| self.faults_by_word(schema, word, says, value);
        schema.object().iter().flat_map(by).collect()
    }

    /// What one word of a schema does not allow.
    fn faults_by_word(
        &self,
        schema: &Value,
        word: &String,
        says: &Value,
        value: &Value,
    ) -> Vec<String> {
        let unless = |fits: bool| match fits {
            true => vec![],
            false => vec![format!("{word} {says:?}: {value:?}")],
        };
        match (word.as_str(), value) {
            ("$schema" | "$defs" | "title" | "description", _) => vec![],
            ("$ref", _) => self.faults_by(self.defined(says.text()), value),
            ("type", _) => unless(says.text() == value.type_name()),
            ("const", _) => unless(says == value),
            ("enum", _) => unless(says.list().contains(value)),
            ("minimum", Value::Number(number)) => unless(*number >= says.number()),
            ("maximum", Value::Number(number)) => unless(*number <= says.number()),
            ("oneOf", _) => {
                let fits = |schema: &&Value| self.faults_by(schema, value).is_empty();
                unless(says.list().iter().filter(fits).count() == 1)
            }
            ("items", Value::List(values)) => {
                values.iter().flat_map(|value| self.faults_by(says, value)).collect()
            }
            ("required", Value::Object(fields)) => {
                unless(says.list().iter().all(|name| fields.contains_key(name.text())))
            }
            ("properties", Value::Object(fields)) => {
                let by = |(name, schema)| Some(self.faults_by(schema, fields.get(name)?));
                says.object().iter().filter_map(by).flatten().collect()
            }
            ("additionalProperties", Value::Object(fields)) => {
                assert_eq!(says, &Value::Truth(false));
                let known = schema.object()["properties"].object();
                unless(fields.keys().all(|name| known.contains_key(name)))
            }
            ("minimum" | "maximum" | "items" | "required", _) => vec![],
            ("properties" | "additionalProperties", _) => vec![],
            _ => panic!("`{word}` is no word of a schema that is known here"),
        }
    }

    fn defined(&self, name: &str) -> &Value {
        let name = name.strip_prefix("#/$defs/").expect("a definition of the same file");
        &self.whole.object()["$defs"].object()[name]
    }

    /// The fields of each object that the schema speaks of, by name.
    pub fn objects(&self) -> Vec<&BTreeMap<String, Value>> {
        let mut found = vec![];
        let mut left = vec![&self.whole];
        while let Some(next) = left.pop() {
            match next {
                Value::Object(fields) => {
                    left.extend(fields.values());
                    found.extend(fields.get("properties").map(Value::object));
                }
                Value::List(values) => left.extend(values),
                Value::Truth(_) | Value::Number(_) | Value::Text(_) => {}
            }
        }
        found
    }
}
