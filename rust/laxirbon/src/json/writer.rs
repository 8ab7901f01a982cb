//! A writer of JSON, as compact as the library writes it: keys in the order of their bytes, no space, and as few escapes as JSON allows.

use super::ToJson;

/// The text that was written so far.
#[derive(Default)]
pub(crate) struct Writer {
    text: String,
}

/// The members of an object with their keys, in any order.
pub(crate) type Members<'a> = Vec<(&'static str, &'a dyn ToJson)>;

impl Writer {
    pub(crate) fn into_text(self) -> String {
        self.text
    }

    /// Writes what needs no quotes: a number, `true`, `false` or `null`.
    pub(crate) fn plain(&mut self, text: &str) {
        self.text.push_str(text);
    }

    pub(crate) fn string(&mut self, text: &str) {
        self.text.push('"');
        for character in text.chars() {
            match character {
                '"' => self.text.push_str("\\\""),
                '\\' => self.text.push_str("\\\\"),
                '\u{8}' => self.text.push_str("\\b"),
                '\u{c}' => self.text.push_str("\\f"),
                '\n' => self.text.push_str("\\n"),
                '\r' => self.text.push_str("\\r"),
                '\t' => self.text.push_str("\\t"),
                '\0'..='\u{1f}' => self.text.push_str(&format!("\\u{:04x}", u32::from(character))),
                _ => self.text.push(character),
            }
        }
        self.text.push('"');
    }

    pub(crate) fn list<'a>(&mut self, items: impl IntoIterator<Item = &'a (dyn ToJson + 'a)>) {
        self.text.push('[');
        for (index, item) in items.into_iter().enumerate() {
            if index > 0 {
                self.text.push(',');
            }
            item.to_json(self);
        }
        self.text.push(']');
    }

    pub(crate) fn object(&mut self, mut members: Members<'_>) {
        members.sort_unstable_by_key(|(key, _)| *key);
        self.text.push('{');
        for (index, (key, value)) in members.into_iter().enumerate() {
            if index > 0 {
                self.text.push(',');
            }
            self.string(key);
            self.text.push(':');
            value.to_json(self);
        }
        self.text.push('}');
    }
}
