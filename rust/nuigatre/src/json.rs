//! JSON, as far as this crate needs it: the texts that the archive answers are read, and the message to it is written.

use crate::memory::{OutOfMemory, Text, push, push_str};
use crate::read::Unread;
use std::borrow::Cow;

/// A JSON value. Numbers are those that the archive writes: digits alone, below 2^64. Texts without escapes are borrowed.
#[derive(Debug, PartialEq, Eq)]
pub(crate) enum Value<'a> {
    Null,
    Bool(bool),
    Number(u64),
    String(Cow<'a, str>),
    Array(Vec<Value<'a>>),
    Object(Vec<(Cow<'a, str>, Value<'a>)>),
}

/// How deep arrays and objects may nest. Those of a component's world nest less deep than 16 times.
const MAX_DEPTH: usize = 24;

impl<'a> Value<'a> {
    /// The value that a text is.
    pub(crate) fn parse(text: &'a str) -> Result<Value<'a>, Unread> {
        let mut reader = Reader::new(text);
        let value = reader.value(MAX_DEPTH)?;
        reader.end()?;
        Ok(value)
    }

    /// The member of this name of an object, if it has one.
    pub(crate) fn find(&self, name: &str) -> Option<&Value<'a>> {
        let Value::Object(members) = self else {
            return None;
        };
        Some(&members.iter().find(|member| member.0 == name)?.1)
    }

    /// The member of this name of an object.
    pub(crate) fn get(&self, name: &str) -> Result<&Value<'a>, Unread> {
        self.find(name).ok_or(Unread::Unknown)
    }

    pub(crate) fn as_str(&self) -> Result<&str, Unread> {
        match self {
            Value::String(text) => Ok(text),
            _ => Err(Unread::Unknown),
        }
    }

    pub(crate) fn as_array(&self) -> Result<&[Value<'a>], Unread> {
        match self {
            Value::Array(items) => Ok(items),
            _ => Err(Unread::Unknown),
        }
    }

    /// The kind of an object: its member `kind`.
    pub(crate) fn kind(&self) -> Result<&str, Unread> {
        self.get("kind")?.as_str()
    }
}

/// The rest of a text.
pub(crate) struct Reader<'a> {
    rest: &'a str,
}

impl<'a> Reader<'a> {
    pub(crate) fn new(text: &'a str) -> Self {
        Reader { rest: text }
    }

    /// The text has to end here.
    pub(crate) fn end(&mut self) -> Result<(), Unread> {
        match self.peek() {
            Some(_) => Err(Unread::Unknown),
            None => Ok(()),
        }
    }

    /// The first byte after spaces.
    pub(crate) fn peek(&mut self) -> Option<u8> {
        self.skip_spaces();
        self.rest.as_bytes().first().copied()
    }

    fn skip_spaces(&mut self) {
        self.rest = self.rest.trim_start_matches(SPACES);
    }

    /// Goes past a prefix, if it is there.
    fn takes(&mut self, prefix: &str) -> bool {
        match self.rest.strip_prefix(prefix) {
            Some(rest) => {
                self.rest = rest;
                true
            }
            None => false,
        }
    }

    /// Goes past a prefix.
    fn expect(&mut self, prefix: &str) -> Result<(), Unread> {
        if self.takes(prefix) {
            Ok(())
        } else {
            Err(Unread::Unknown)
        }
    }

    fn word(&mut self, word: &str, value: Value<'a>) -> Result<Value<'a>, Unread> {
        self.expect(word)?;
        Ok(value)
    }

    fn value(&mut self, depth: usize) -> Result<Value<'a>, Unread> {
        match self.peek() {
            Some(b'n') => self.word("null", Value::Null),
            Some(b't') => self.word("true", Value::Bool(true)),
            Some(b'f') => self.word("false", Value::Bool(false)),
            Some(b'"') => Ok(Value::String(self.string()?)),
            Some(b'[') => self.array(depth),
            Some(b'{') => self.object(depth),
            _ => self.number(),
        }
    }

    fn number(&mut self) -> Result<Value<'a>, Unread> {
        let end = self.rest.find(|c: char| !c.is_ascii_digit());
        let (digits, rest) = self.rest.split_at(end.unwrap_or(self.rest.len()));
        if digits.len() > 1 && digits.starts_with('0') {
            return Err(Unread::Unknown);
        }
        self.rest = rest;
        let number = digits.parse().map_err(|_| Unread::Unknown)?;
        Ok(Value::Number(number))
    }

    /// Goes through what these brackets are around, each item by a function.
    fn items(
        &mut self,
        brackets: [&str; 2],
        mut item: impl FnMut(&mut Self) -> Result<(), Unread>,
    ) -> Result<(), Unread> {
        self.skip_spaces();
        self.expect(brackets[0])?;
        self.skip_spaces();
        if self.takes(brackets[1]) {
            return Ok(());
        }
        loop {
            item(self)?;
            self.skip_spaces();
            if self.takes(brackets[1]) {
                return Ok(());
            }
            self.expect(",")?;
        }
    }

    /// Goes through the items of an array, each by a function.
    pub(crate) fn elements(
        &mut self,
        element: impl FnMut(&mut Self) -> Result<(), Unread>,
    ) -> Result<(), Unread> {
        self.items(["[", "]"], element)
    }

    /// Goes through the members of an object, each by a function, which is passed the name.
    pub(crate) fn members(
        &mut self,
        mut member: impl FnMut(&mut Self, Cow<'a, str>) -> Result<(), Unread>,
    ) -> Result<(), Unread> {
        self.items(["{", "}"], |reader| {
            reader.skip_spaces();
            let name = reader.string()?;
            reader.skip_spaces();
            reader.expect(":")?;
            member(reader, name)
        })
    }

    fn array(&mut self, depth: usize) -> Result<Value<'a>, Unread> {
        let depth = depth.checked_sub(1).ok_or(Unread::Unknown)?;
        let mut items = Vec::new();
        self.elements(|reader| Ok(push(&mut items, reader.value(depth)?)?))?;
        Ok(Value::Array(items))
    }

    fn object(&mut self, depth: usize) -> Result<Value<'a>, Unread> {
        let depth = depth.checked_sub(1).ok_or(Unread::Unknown)?;
        let mut members = Vec::new();
        self.members(|reader, name| Ok(push(&mut members, (name, reader.value(depth)?))?))?;
        Ok(Value::Object(members))
    }

    /// Goes past a value.
    pub(crate) fn skip(&mut self) -> Result<(), Unread> {
        self.raw().map(drop)
    }

    /// The text of a value, whose brackets and strings are closed where they have to be. No more of it is looked at.
    pub(crate) fn raw(&mut self) -> Result<&'a str, Unread> {
        self.skip_spaces();
        let end = end_of_value(self.rest.as_bytes()).ok_or(Unread::Unknown)?;
        let (raw, rest) = self.rest.split_at(end);
        self.rest = rest;
        Ok(raw)
    }

    fn string(&mut self) -> Result<Cow<'a, str>, Unread> {
        self.expect("\"")?;
        let plain = self.plain()?;
        if self.takes("\"") {
            return Ok(Cow::Borrowed(plain));
        }
        let mut text = String::new();
        push_str(&mut text, plain)?;
        loop {
            self.expect("\\")?;
            let mut bytes = [0; 4];
            push_str(&mut text, self.escape()?.encode_utf8(&mut bytes))?;
            push_str(&mut text, self.plain()?)?;
            if self.takes("\"") {
                return Ok(Cow::Owned(text));
            }
        }
    }

    /// The characters up to a quote or a backslash.
    fn plain(&mut self) -> Result<&'a str, Unread> {
        let is_end = |byte: &u8| matches!(byte, b'"' | b'\\' | 0..b' ');
        let end = self.rest.as_bytes().iter().position(is_end);
        let (plain, rest) = self.rest.split_at(end.ok_or(Unread::Unknown)?);
        self.rest = rest;
        Ok(plain)
    }

    /// The character of an escape, after the backslash.
    fn escape(&mut self) -> Result<char, Unread> {
        let letter = self.rest.chars().next().ok_or(Unread::Unknown)?;
        self.rest = &self.rest[letter.len_utf8()..];
        Ok(match letter {
            '"' | '\\' | '/' => letter,
            'b' => '\u{8}',
            'f' => '\u{c}',
            'n' => '\n',
            'r' => '\r',
            't' => '\t',
            'u' => self.unicode_escape().ok_or(Unread::Unknown)?,
            _ => return Err(Unread::Unknown),
        })
    }

    /// The character of one escape of four digits, or of two that are a surrogate pair.
    fn unicode_escape(&mut self) -> Option<char> {
        let first = self.four_digits()?;
        if !(0xd800..0xdc00).contains(&first) {
            return char::from_u32(first);
        }
        self.takes("\\u").then_some(())?;
        let second = self.four_digits()?;
        let low = second.checked_sub(0xdc00).filter(|low| *low < 0x400)?;
        char::from_u32(0x10000 + (first - 0xd800) * 0x400 + low)
    }

    fn four_digits(&mut self) -> Option<u32> {
        let digits = self.rest.get(..4)?;
        if !digits.bytes().all(|digit| digit.is_ascii_hexdigit()) {
            return None;
        }
        self.rest = &self.rest[4..];
        u32::from_str_radix(digits, 16).ok()
    }
}

/// The blanks that may be between the pieces of a JSON text.
pub(crate) const SPACES: [char; 4] = [' ', '\t', '\n', '\r'];

/// Whether a text is no more than one JSON value wherever it is put: where what is around it makes it part of a JSON
/// text, it is one value of that. Whether it is JSON is not looked at.
pub(crate) fn is_one_value(text: &str) -> bool {
    let text = text.trim_matches(SPACES).as_bytes();
    end_of_value(text) == Some(text.len())
}

/// Where the value ends that a text begins with: after the bracket or the quote that closes it, or before what neither a
/// number nor a word has. Which brackets close which is not looked at.
fn end_of_value(text: &[u8]) -> Option<usize> {
    let (mut depth, mut at) = (0_usize, 0);
    loop {
        match text.get(at) {
            Some(b'"') => at = end_of_string(text, at)?,
            Some(b'[' | b'{') => depth += 1,
            Some(b']' | b'}') if depth > 0 => depth -= 1,
            None | Some(b',' | b':' | b']' | b'}' | b' ' | b'\t' | b'\n' | b'\r') if depth == 0 => {
                return (at > 0).then_some(at);
            }
            None => return None,
            _ => {}
        }
        at += 1;
        if depth == 0 && matches!(text[0], b'[' | b'{' | b'"') {
            return Some(at);
        }
    }
}

/// Where the string ends whose first quote is at this position: the position of its last quote.
fn end_of_string(text: &[u8], start: usize) -> Option<usize> {
    let mut at = start + 1;
    loop {
        let is_end = |byte: &u8| matches!(byte, b'"' | b'\\');
        at += text.get(at..)?.iter().position(is_end)?;
        if text[at] == b'"' {
            return Some(at);
        }
        at += 2;
    }
}

/// Appends a text in quotes, with the escapes that it needs.
pub(crate) fn put_string(out: &mut Text, text: &str) -> Result<(), OutOfMemory> {
    out.put("\"")?;
    let mut plain = 0;
    for (at, byte) in text.bytes().enumerate() {
        if !matches!(byte, b'"' | b'\\' | 0..b' ') {
            continue;
        }
        out.put(&text[plain..at])?;
        plain = at + 1;
        match byte {
            b'"' => out.put("\\\"")?,
            b'\\' => out.put("\\\\")?,
            _ => out.put_args(format_args!("\\u{byte:04x}"))?,
        }
    }
    out.put(&text[plain..])?;
    out.put("\"")
}

/// Appends a list, each item by a function.
pub(crate) fn put_list<T>(
    out: &mut Text,
    items: &[T],
    put: impl Fn(&mut Text, &T) -> Result<(), OutOfMemory>,
) -> Result<(), OutOfMemory> {
    out.put("[")?;
    for (index, item) in items.iter().enumerate() {
        if index > 0 {
            out.put(",")?;
        }
        put(out, item)?;
    }
    out.put("]")
}

#[cfg(test)]
mod tests {
    use super::{Value, is_one_value, put_string};
    use crate::memory::Text;
    use crate::read::{Read, Unread};

    #[test]
    fn values() {
        let text = r#" { "a" : [ 1 , true , null , "x\n\u00e9\ud83d\ude00y" ] , "b" : { } } "#;
        let value = Value::parse(text).expect("JSON");
        let items = value.get("a").and_then(Value::as_array).expect("a list");
        assert_eq!(u32::read(&items[0]), Ok(1));
        assert_eq!(bool::read(&items[1]), Ok(true));
        assert_eq!(items[2], Value::Null);
        assert_eq!(items[3].as_str(), Ok("x\né😀y"));
        assert_eq!(value.find("b"), Some(&Value::Object(Vec::new())));
        assert_eq!(value.find("c"), None);
    }

    #[test]
    fn refused() {
        for text in [
            "",
            "[",
            "[1,]",
            "{\"a\"}",
            "\"\\ud800\"",
            "\"\\x\"",
            "01",
            "1 2",
            "\"\n\"",
            "tru",
            "\"\\u+123\"",
        ] {
            assert_eq!(Value::parse(text), Err(Unread::Unknown), "{text}");
        }
        assert!(Value::parse(&"[".repeat(100_000)).is_err());
    }

    #[test]
    fn strings_read_back() {
        let text = "\u{0}\u{1f}\"\\/é😀\u{7f}";
        let mut out = Text::default();
        put_string(&mut out, text).expect("memory");
        assert_eq!(Value::parse(&out.0), Ok(Value::String(text.into())));
    }

    #[test]
    fn one_value() {
        for text in [
            " {\"a\": [{}, \"}\"]} ",
            "[]",
            "\"a,\\\"b\"",
            "1",
            "null",
            "{\"\\\\\":1}",
        ] {
            assert!(is_one_value(text), "{text}");
        }
        for text in [
            "",
            " ",
            "{},\"other\":1",
            "{}{}",
            "1,\"other\":1",
            "1:2",
            "\"a\",\"other\":1",
            "\"a\"b",
            "{}}",
            "{",
            "]",
            "\"",
            "{\"\\\"}",
            "{\"\\\\\"},\"other\":{}",
            "1 2",
        ] {
            assert!(!is_one_value(text), "{text}");
        }
    }
}
