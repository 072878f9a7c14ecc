//! The part of JSON that the vectors are written in: no fractions, no signs, no escapes.

use std::str::Chars;

#[derive(Clone, Debug, PartialEq, Eq)]
pub enum Json {
    Null,
    Bool(bool),
    Number(u64),
    Text(String),
    List(Vec<Json>),
    Object(Vec<(String, Json)>),
}

impl Json {
    /// The value that a text is.
    pub fn read(text: &str) -> Result<Json, String> {
        let mut rest = text.chars();
        let value = value(&mut rest)?;
        match rest.as_str().trim() {
            "" => Ok(value),
            more => Err(format!("behind the value: {more}")),
        }
    }

    /// The field of an object.
    pub fn field(&self, name: &str) -> Result<&Json, String> {
        let Json::Object(fields) = self else { return Err(format!("no object: {self:?}")) };
        let field = fields.iter().find(|(known, _)| known == name);
        field.map(|(_, value)| value).ok_or(format!("no field {name}"))
    }

    /// The field that is a number.
    pub fn number(&self, name: &str) -> Result<u64, String> {
        match self.field(name)? {
            Json::Number(number) => Ok(*number),
            other => Err(format!("{name} is no number: {other:?}")),
        }
    }

    /// The field that is a text.
    pub fn text(&self, name: &str) -> Result<&str, String> {
        match self.field(name)? {
            Json::Text(text) => Ok(text),
            other => Err(format!("{name} is no text: {other:?}")),
        }
    }

    /// The field that is a list.
    pub fn list(&self, name: &str) -> Result<&[Json], String> {
        match self.field(name)? {
            Json::List(list) => Ok(list),
            other => Err(format!("{name} is no list: {other:?}")),
        }
    }
}

fn value(rest: &mut Chars) -> Result<Json, String> {
    skip_blanks(rest);
    match rest.clone().next() {
        Some('{') => object(rest),
        Some('[') => list(rest),
        Some('"') => text(rest).map(Json::Text),
        Some('0'..='9') => number(rest),
        _ => word(rest),
    }
}

fn word(rest: &mut Chars) -> Result<Json, String> {
    let words = [("null", Json::Null), ("true", Json::Bool(true)), ("false", Json::Bool(false))];
    for (word, value) in words {
        if let Some(behind) = rest.as_str().strip_prefix(word) {
            *rest = behind.chars();
            return Ok(value);
        }
    }
    Err(format!("no value: {}", rest.as_str()))
}

fn number(rest: &mut Chars) -> Result<Json, String> {
    let text = rest.as_str();
    let end = text.find(|c: char| !c.is_ascii_digit()).unwrap_or(text.len());
    *rest = text[end..].chars();
    text[..end].parse().map(Json::Number).map_err(|error| format!("{}: {error}", &text[..end]))
}

fn text(rest: &mut Chars) -> Result<String, String> {
    take(rest, '"')?;
    let (text, behind) = rest.as_str().split_once('"').ok_or("a text has no end")?;
    *rest = behind.chars();
    if text.contains('\\') {
        return Err(format!("an escape: {text}"));
    }
    Ok(text.to_string())
}

fn list(rest: &mut Chars) -> Result<Json, String> {
    take(rest, '[')?;
    items(rest, ']', value).map(Json::List)
}

fn object(rest: &mut Chars) -> Result<Json, String> {
    take(rest, '{')?;
    let field = |rest: &mut Chars| {
        skip_blanks(rest);
        let name = text(rest)?;
        take(rest, ':')?;
        Ok((name, value(rest)?))
    };
    items(rest, '}', field).map(Json::Object)
}

/// Items with commas between them, up to the end.
fn items<T>(
    rest: &mut Chars,
    end: char,
    item: impl Fn(&mut Chars) -> Result<T, String>,
) -> Result<Vec<T>, String> {
    let mut items = Vec::new();
    if take(rest, end).is_ok() {
        return Ok(items);
    }
    loop {
        items.push(item(rest)?);
        if take(rest, end).is_ok() {
            return Ok(items);
        }
        take(rest, ',')?;
    }
}

/// The next character but blanks, if it is this one; otherwise nothing is taken.
fn take(rest: &mut Chars, wanted: char) -> Result<(), String> {
    skip_blanks(rest);
    let behind = rest.as_str().strip_prefix(wanted);
    let behind = behind.ok_or_else(|| format!("{wanted} is missing: {}", rest.as_str()))?;
    *rest = behind.chars();
    Ok(())
}

fn skip_blanks(rest: &mut Chars) {
    *rest = rest.as_str().trim_start().chars();
}

#[cfg(test)]
mod tests {
    use super::*;

    #[test]
    fn every_kind_is_read() {
        let read = Json::read(r#" {"a": [null, true,12], "b":{}, "c" : "x y", "d":[]} "#).unwrap();
        let list = Json::List(vec![Json::Null, Json::Bool(true), Json::Number(12)]);
        assert_eq!(read.field("a"), Ok(&list));
        assert_eq!(read.field("b"), Ok(&Json::Object(vec![])));
        assert_eq!(read.text("c"), Ok("x y"));
        assert_eq!(read.list("d"), Ok(&[][..]));
        assert!(read.number("c").is_err() && read.list("c").is_err() && read.field("e").is_err());
    }

    #[test]
    fn what_is_none_is_refused() {
        for text in ["", "{", "[1,]", "[1 2]", r#"{"a"}"#, "-1", "1.5", "nul", r#""\n""#, "1 1"] {
            assert!(Json::read(text).is_err(), "{text}");
        }
    }
}
