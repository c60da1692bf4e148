//! JSON objects, one a line.

/// An object whose fields stand in the order in which they were added.
#[derive(Clone, Debug, Default)]
pub struct Object {
    fields: Vec<String>,
}

impl Object {
    pub fn new() -> Object {
        Object::default()
    }

    pub fn text(self, name: &str, value: &str) -> Object {
        self.raw(name, &string(value))
    }

    pub fn number(self, name: &str, value: usize) -> Object {
        self.raw(name, &value.to_string())
    }

    pub fn truth(self, name: &str, value: bool) -> Object {
        self.raw(name, &value.to_string())
    }

    pub fn object(self, name: &str, value: Object) -> Object {
        self.raw(name, &value.to_string())
    }

    pub fn objects(self, name: &str, values: &[Object]) -> Object {
        let values: Vec<String> = values.iter().map(Object::to_string).collect();
        self.raw(name, &format!("[{}]", values.join(",")))
    }

    pub fn numbers(self, name: &str, values: &[usize]) -> Object {
        let values: Vec<String> = values.iter().map(usize::to_string).collect();
        self.raw(name, &format!("[{}]", values.join(",")))
    }

    /// The fields of another object behind these.
    pub fn and(mut self, other: Object) -> Object {
        self.fields.extend(other.fields);
        self
    }

    /// A field if it is known.
    pub fn maybe<T>(self, value: Option<T>, add: impl FnOnce(Object, T) -> Object) -> Object {
        match value {
            Some(value) => add(self, value),
            None => self,
        }
    }

    fn raw(mut self, name: &str, value: &str) -> Object {
        self.fields.push(format!("{}:{value}", string(name)));
        self
    }
}

impl std::fmt::Display for Object {
    fn fmt(&self, f: &mut std::fmt::Formatter<'_>) -> std::fmt::Result {
        write!(f, "{{{}}}", self.fields.join(","))
    }
}

/// A text as a JSON string.
fn string(text: &str) -> String {
    let mut quoted = String::from('"');
    for character in text.chars() {
        match character {
            '"' => quoted.push_str("\\\""),
            '\\' => quoted.push_str("\\\\"),
            '\n' => quoted.push_str("\\n"),
            '\t' => quoted.push_str("\\t"),
            '\r' => quoted.push_str("\\r"),
            _ if character.is_control() => {
                quoted.push_str(&format!("\\u{:04x}", u32::from(character)));
            }
            _ => quoted.push(character),
        }
    }
    quoted.push('"');
    quoted
}

#[cfg(test)]
mod tests {
    use super::*;

    #[test]
    fn fields_stand_in_order_and_strings_are_escaped() {
        let inner = Object::new().number("i", 1);
        let object = Object::new()
            .text("a\"b", "c\\d\n\t\r\u{1}\u{7f}ä")
            .number("n", 7)
            .truth("t", true)
            .object("o", inner.clone())
            .objects("p", &[inner, Object::new()])
            .numbers("l", &[1, 2])
            .and(Object::new().number("m", 8))
            .maybe(None, |object, value| object.number("no", value));
        let line = r#"{"a\"b":"c\\d\n\t\r\u0001\u007fä","n":7,"t":true,"o":{"i":1},"p":[{"i":1},{}],"l":[1,2],"m":8}"#;
        assert_eq!(object.to_string(), line);
    }
}
