//! Renames out of their text: a vector of the binary format of WebAssembly, of the names of the import's module, its
//! original name and its new name.

use crate::binary::{number, sized};
use crate::memory::{push, string};
use crate::module_import_map::Rename;
use crate::read::Unread;
use std::str;

/// The renames that the text has.
pub(crate) fn read_renames(text: &[u8]) -> Result<Vec<Rename>, Unread> {
    let mut rest = text;
    let mut renames = Vec::new();
    for _ in 0..number(&mut rest).ok_or(Unread::Unknown)? {
        let rename = Rename {
            module: name(&mut rest)?,
            original: name(&mut rest)?,
            name: name(&mut rest)?,
        };
        push(&mut renames, rename)?;
    }
    if rest.is_empty() {
        Ok(renames)
    } else {
        Err(Unread::Unknown)
    }
}

fn name(rest: &mut &[u8]) -> Result<String, Unread> {
    let bytes = sized(rest).ok_or(Unread::Unknown)?;
    let text = str::from_utf8(bytes).map_err(|_| Unread::Unknown)?;
    Ok(string(text)?)
}

#[cfg(test)]
mod tests {
    use super::read_renames;
    use crate::read::Unread;

    #[test]
    fn no_text_of_renames() {
        for text in [
            b"\x01\x01a\x01f\x02g".as_slice(),
            b"\x01\x01a\x01f\x01gh",
            b"\x01\x01a\x01f\x01\xff",
        ] {
            assert_eq!(read_renames(text), Err(Unread::Unknown));
        }
        let renames = read_renames(b"\x01\x01a\x01f\x01g").expect("a rename");
        assert_eq!(renames.len(), 1);
    }
}
