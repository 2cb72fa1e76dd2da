//! JSON texts.

/// A text as a JSON string.
pub fn string(text: &str) -> String {
    let mut s = String::from("\"");
    for c in text.chars() {
        match c {
            '"' => s.push_str("\\\""),
            '\\' => s.push_str("\\\\"),
            '\n' => s.push_str("\\n"),
            '\r' => s.push_str("\\r"),
            '\t' => s.push_str("\\t"),
            c if c < ' ' || c == '\u{7f}' => s.push_str(&format!("\\u{:04x}", u32::from(c))),
            c => s.push(c),
        }
    }
    s.push('"');
    s
}

/// A field of an object: its name, and its value as a JSON text.
pub type Field = (&'static str, String);

/// Fields with commas between, without the braces of an object.
pub fn fields(fields: &[Field]) -> String {
    fields.iter().map(|(name, value)| format!("{}:{value}", string(name))).collect::<Vec<String>>().join(",")
}

pub fn object(all: &[Field]) -> String {
    format!("{{{}}}", fields(all))
}

/// A list of JSON texts.
pub fn list(values: impl IntoIterator<Item = String>) -> String {
    format!("[{}]", values.into_iter().collect::<Vec<String>>().join(","))
}

/// A list of JSON texts with a line for each.
pub fn lines(values: impl IntoIterator<Item = String>) -> String {
    let lines: Vec<String> = values.into_iter().map(|value| format!("\n{value}")).collect();
    format!("[{}]", lines.join(","))
}

/// A JSON text, or null.
pub fn maybe(value: Option<impl ToString>) -> String {
    value.map_or("null".to_string(), |value| value.to_string())
}
