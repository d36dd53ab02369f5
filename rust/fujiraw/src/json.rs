//! Objects of JSON, each on a line of its own.
use std::fmt::Write;

pub struct Object(String);

impl Object {
    pub fn new() -> Object {
        Object("{".to_string())
    }

    /// A field whose value is JSON already.
    pub fn field(mut self, name: &str, value: impl std::fmt::Display) -> Object {
        let comma = if self.0.len() > 1 { "," } else { "" };
        let _ = write!(self.0, "{comma}\"{name}\":{value}");
        self
    }

    pub fn text(self, name: &str, value: &str) -> Object {
        self.field(name, quoted(value))
    }

    /// A field that may have no value.
    pub fn maybe(self, name: &str, value: Option<impl std::fmt::Display>) -> Object {
        match value {
            Some(value) => self.field(name, value),
            None => self.field(name, "null"),
        }
    }

    pub fn end(self) -> String {
        self.0 + "}"
    }
}

pub fn list(values: impl Iterator<Item = String>) -> String {
    format!("[{}]", values.collect::<Vec<_>>().join(","))
}

pub fn quoted(text: &str) -> String {
    let mut all = "\"".to_string();
    for c in text.chars() {
        match c {
            '"' | '\\' => all.extend(['\\', c]),
            c if (c as u32) < 0x20 || c == '\u{7f}' => {
                let _ = write!(all, "\\u{:04x}", c as u32);
            }
            c => all.push(c),
        }
    }
    all + "\""
}
