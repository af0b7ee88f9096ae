//! The JSON of resolved worlds, as short as it can be.

use crate::json::{Reader, put_string};
use crate::memory::{OutOfMemory, Text};
use crate::read::Unread;

/// Members of the format that say nothing of what a component is encoded from. They are much of a text.
const LEFT_OUT: [&str; 2] = ["docs", "stability"];

/// Members of the format that are maps, where they are objects.
const MAPS: [&str; 6] = [
    "imports",
    "exports",
    "types",
    "functions",
    "interfaces",
    "worlds",
];

/// How deep values may nest: as deep as those that the archive reads.
const MAX_DEPTH: usize = 128;

/// The names of an object's members.
#[derive(Clone, Copy, PartialEq, Eq)]
enum Names {
    /// By words of the format.
    Format,
    /// By names that whoever wrote the worlds chose.
    Chosen,
}

/// The text of resolved worlds that the archive reads, without spaces between its pieces, and without docs. It means the
/// same to the archive.
pub(crate) fn compact(json: &str) -> Result<String, Unread> {
    let mut out = Text::default();
    out.0.try_reserve(json.len()).map_err(OutOfMemory::from)?;
    let mut reader = Reader::new(json);
    copy(&mut reader, &mut out, Names::Format, MAX_DEPTH)?;
    reader.end()?;
    Ok(out.0)
}

/// Copies a value.
fn copy(reader: &mut Reader<'_>, out: &mut Text, names: Names, depth: usize) -> Result<(), Unread> {
    let within = || depth.checked_sub(1).ok_or(Unread::Unknown);
    match reader.peek() {
        Some(b'{') => copy_object(reader, out, names, within()?),
        Some(b'[') => copy_array(reader, out, within()?),
        _ => Ok(out.put(reader.raw()?)?),
    }
}

fn copy_object(
    reader: &mut Reader<'_>,
    out: &mut Text,
    names: Names,
    depth: usize,
) -> Result<(), Unread> {
    out.put("{")?;
    let mut separator = "";
    reader.members(|reader, name| {
        if names == Names::Format && LEFT_OUT.contains(&&*name) {
            return reader.skip();
        }
        out.put(separator)?;
        separator = ",";
        put_string(out, &name)?;
        out.put(":")?;
        let is_map = names == Names::Format && MAPS.contains(&&*name);
        let within = if is_map { Names::Chosen } else { Names::Format };
        copy(reader, out, within, depth)
    })?;
    Ok(out.put("}")?)
}

fn copy_array(reader: &mut Reader<'_>, out: &mut Text, depth: usize) -> Result<(), Unread> {
    out.put("[")?;
    let mut separator = "";
    reader.elements(|reader| {
        out.put(separator)?;
        separator = ",";
        copy(reader, out, Names::Format, depth)
    })?;
    Ok(out.put("]")?)
}

#[cfg(test)]
mod tests {
    use super::{MAX_DEPTH, compact};
    use crate::read::Unread;

    #[test]
    fn what_is_left_out() {
        let text = r#" {
            "worlds" : [ { "name" : "a \"b\" ", "docs": {"contents": "x, [ \" {"}, "imports": {"docs": 0, "stability": {"docs": 1}} } ],
            "interfaces": [ { "types": { "docs" : 1 }, "functions": {"stability": {"name": "stability", "stability": "unknown"}}, "other": -1.5e3 } ],
            "types": [ ], "\u0064ocs": [ null ], "packages": [ {"worlds": {"docs":1}}, true ]
        } "#;
        let short = r#"{"worlds":[{"name":"a \"b\" ","imports":{"docs":0,"stability":{}}}],"interfaces":[{"types":{"docs":1},"functions":{"stability":{"name":"stability"}},"other":-1.5e3}],"types":[],"packages":[{"worlds":{"docs":1}},true]}"#;
        assert_eq!(compact(text).as_deref(), Ok(short));
        assert_eq!(compact(short).as_deref(), Ok(short));
    }

    #[test]
    fn depth() {
        let nested = |depth: usize| "[".repeat(depth) + &"]".repeat(depth);
        let deep = nested(MAX_DEPTH);
        assert_eq!(compact(&deep), Ok(deep));
        assert_eq!(compact(&nested(MAX_DEPTH + 1)), Err(Unread::Unknown));
        assert_eq!(compact("{"), Err(Unread::Unknown));
        assert_eq!(compact("{} {}"), Err(Unread::Unknown));
    }
}
