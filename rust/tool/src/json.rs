//! JSON, as much of it as is written here: an object on one line.

pub struct Object {
    text: String,
}

impl Object {
    pub fn new() -> Object {
        Object { text: "{".to_string() }
    }

    fn put(mut self, key: &str, value: &str) -> Object {
        if self.text.len() > 1 {
            self.text.push(',');
        }
        self.text.push_str(&quoted(key));
        self.text.push(':');
        self.text.push_str(value);
        self
    }

    pub fn number(self, key: &str, value: impl Into<u64>) -> Object {
        let text = value.into().to_string();
        self.put(key, &text)
    }

    pub fn flag(self, key: &str, value: bool) -> Object {
        self.put(key, if value { "true" } else { "false" })
    }

    /// A value that there is none of.
    pub fn null(self, key: &str) -> Object {
        self.put(key, "null")
    }

    pub fn text(self, key: &str, value: &str) -> Object {
        let text = quoted(value);
        self.put(key, &text)
    }

    /// A list of texts.
    pub fn texts(self, key: &str, values: &[String]) -> Object {
        self.put(key, &listed(values))
    }

    pub fn numbers(self, key: &str, values: &[usize]) -> Object {
        let all: Vec<String> = values.iter().map(usize::to_string).collect();
        self.put(key, &format!("[{}]", all.join(",")))
    }

    /// A list of objects.
    pub fn objects(self, key: &str, values: Vec<Object>) -> Object {
        let all: Vec<String> = values.into_iter().map(Object::done).collect();
        self.put(key, &format!("[{}]", all.join(",")))
    }

    /// A list of lists of texts.
    pub fn lists(self, key: &str, values: &[Vec<String>]) -> Object {
        let all: Vec<String> = values.iter().map(|value| listed(value)).collect();
        self.put(key, &format!("[{}]", all.join(",")))
    }

    pub fn done(mut self) -> String {
        self.text.push('}');
        self.text
    }
}

fn listed(values: &[String]) -> String {
    let all: Vec<String> = values.iter().map(|value| quoted(value)).collect();
    format!("[{}]", all.join(","))
}

/// A text between quotes.
fn quoted(text: &str) -> String {
    let mut quoted = String::with_capacity(text.len() + 2);
    quoted.push('"');
    for c in text.chars() {
        match c {
            '"' => quoted.push_str("\\\""),
            '\\' => quoted.push_str("\\\\"),
            '\n' => quoted.push_str("\\n"),
            c if (c as u32) < 0x20 => quoted.push_str(&format!("\\u{:04x}", c as u32)),
            c => quoted.push(c),
        }
    }
    quoted.push('"');
    quoted
}

#[cfg(test)]
mod tests {
    use super::*;

    #[test]
    fn an_object() {
        let object = Object::new().number("n", 7u64).text("t", "a\"b\\c\n\u{1}ä").flag("f", true).texts("l", &["x".into(), "y".into()]).null("z");
        assert_eq!(object.done(), r#"{"n":7,"t":"a\"b\\c\n\u0001ä","f":true,"l":["x","y"],"z":null}"#);
        assert_eq!(Object::new().texts("l", &[]).done(), r#"{"l":[]}"#);
        assert_eq!(Object::new().lists("l", &[vec!["x".into()], vec![]]).done(), r#"{"l":[["x"],[]]}"#);
        assert_eq!(Object::new().numbers("n", &[1, 20]).objects("o", vec![Object::new().number("a", 1u64), Object::new()]).done(), r#"{"n":[1,20],"o":[{"a":1},{}]}"#);
    }
}
