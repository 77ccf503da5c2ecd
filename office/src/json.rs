//! One JSON object, written field by field.

use std::ffi::OsStr;
use std::fmt::{Display, Write};
use std::os::unix::ffi::OsStrExt;

pub struct Object(String);

impl Object {
    pub fn new() -> Object {
        Object(String::from("{"))
    }

    /// A value that is JSON as it is: a number, a truth value, `null`, an object.
    pub fn plain(mut self, key: &str, value: impl Display) -> Object {
        if self.0.len() > 1 {
            self.0.push(',');
        }
        let _ = write!(self.0, "{}:{value}", string(key));
        self
    }

    pub fn text(self, key: &str, value: &str) -> Object {
        let value = string(value);
        self.plain(key, value)
    }

    /// `null` where there is none.
    pub fn maybe(self, key: &str, value: Option<impl Display>) -> Object {
        match value {
            Some(value) => self.plain(key, value),
            None => self.plain(key, "null"),
        }
    }

    /// A name. JSON is UTF-8: of a name that is none, a second key has the bytes.
    pub fn name(self, key: &str, name: &OsStr) -> Object {
        let object = self.text(key, &name.to_string_lossy());
        if name.to_str().is_some() {
            return object;
        }
        let hex: String = name.as_bytes().iter().map(|b| format!("{b:02x}")).collect();
        object.text(&format!("{key}_hex"), &hex)
    }

    pub fn end(mut self) -> String {
        self.0.push('}');
        self.0
    }
}

fn string(text: &str) -> String {
    let mut quoted = String::from("\"");
    for letter in text.chars() {
        match letter {
            '"' | '\\' => quoted.extend(['\\', letter]),
            '\n' => quoted += "\\n",
            '\0'..='\x1F' | '\x7F' => {
                let _ = write!(quoted, "\\u{:04x}", u32::from(letter));
            }
            _ => quoted.push(letter),
        }
    }
    quoted.push('"');
    quoted
}

#[cfg(test)]
mod tests {
    use super::*;

    #[test]
    fn an_object_is_json() {
        let object = Object::new()
            .text("a\"b", "x\\\n\t\u{1b}ä")
            .plain("n", 5)
            .maybe("none", None::<u8>);
        assert_eq!(
            object.end(),
            r#"{"a\"b":"x\\\n\u0009\u001bä","n":5,"none":null}"#
        );
    }

    #[test]
    fn a_name_that_is_no_utf8_has_its_bytes() {
        let name = OsStr::from_bytes(b"\xFFa");
        let object = Object::new().name("file", name).end();
        assert_eq!(object, "{\"file\":\"\u{FFFD}a\",\"file_hex\":\"ff61\"}");
    }
}
