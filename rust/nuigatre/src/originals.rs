//! Main modules with the original names of their renamed imports.

use crate::binary::{Bytes, import_section, imports};
use crate::memory::OutOfMemory;
use crate::module_import_map::ModuleImportMap;
use std::borrow::Cow;
use std::ops::Range;
use std::str;

/// A main module with the original names of its imports, and what that changes of the places of its bytes.
pub(crate) struct Original<'a> {
    pub(crate) module: Cow<'a, [u8]>,
    /// Where the content of the import section is, if it was changed.
    content: Range<usize>,
    /// How many bytes later the content begins, and ends, with the renamed imports.
    later: (isize, isize),
}

impl<'a> Original<'a> {
    /// That of a module whose imports were renamed so.
    pub(crate) fn of(
        renamed: &'a [u8],
        map: Option<&ModuleImportMap>,
    ) -> Result<Self, OutOfMemory> {
        let changed = match map {
            Some(map) => with_original_names(renamed, map)?,
            None => None,
        };
        Ok(changed.unwrap_or(Original {
            module: Cow::Borrowed(renamed),
            content: usize::MAX..usize::MAX,
            later: (0, 0),
        }))
    }

    /// The place in the renamed module of a byte of this one. In the import section it is the first byte of its content that
    /// has the same place.
    pub(crate) fn renamed_offset(&self, offset: usize) -> usize {
        let later = if offset < self.content.start {
            0
        } else if offset < self.content.end {
            self.later.0
        } else {
            self.later.1
        };
        offset.saturating_add_signed(later)
    }
}

/// A module with the original names of its imports; `None` where it has none that were renamed, or can't be read.
fn with_original_names(
    renamed: &[u8],
    map: &ModuleImportMap,
) -> Result<Option<Original<'static>>, OutOfMemory> {
    let Some(found) = import_section(renamed) else {
        return Ok(None);
    };
    let (mut entries, mut count) = (Bytes::default(), 0);
    let mut is_renamed = false;
    for import in imports(found.content) {
        let Some(import) = import else {
            return Ok(None);
        };
        let text = |name| str::from_utf8(name).ok();
        let names = text(import.module).zip(text(import.name));
        let original = names.and_then(|(module, name)| map.original_name(module, name));
        is_renamed |= original.is_some();
        entries.put_sized(import.module)?;
        entries.put_sized(original.map_or(import.name, str::as_bytes))?;
        entries.put(import.what)?;
        count += 1;
    }
    if !is_renamed {
        return Ok(None);
    }
    let mut content = Bytes::default();
    content.put_number(count)?;
    content.put(&entries.0)?;
    let mut module = Bytes::default();
    module.put(&renamed[..found.start])?;
    module.put_import_section(&content.0)?;
    let end = module.0.len();
    module.put(&renamed[found.end..])?;
    let start = end - content.0.len();
    let later = |renamed: usize, original: usize| renamed as isize - original as isize;
    Ok(Some(Original {
        module: Cow::Owned(module.0),
        content: start..end,
        later: (
            later(found.end - found.content.len(), start),
            later(found.end, end),
        ),
    }))
}

#[cfg(test)]
mod tests {
    use super::Original;
    use crate::module_import_map::{ModuleImportMap, Rename};

    /// A module that imports `a.f` three times, and `b.f` twice, the last as a memory; and has a custom section.
    const REPEATS: &[u8] = b"\0asm\x01\0\0\0\x01\x04\x01\x60\0\0\x02\x20\x05\x01a\x01f\0\0\x01a\x01f\0\0\x01b\x01f\0\0\
        \x01a\x01f\0\0\x01b\x01f\x02\0\x01\0\x02\x01x";

    /// As the method before, with the names that it gets.
    const RENAMED: &[u8] = b"\0asm\x01\0\0\0\x01\x04\x01\x60\0\0\x02\x2f\x05\x01a\x01f\0\0\x01a\x06f [v2]\0\0\x01b\x01f\0\0\
        \x01a\x06f [v3]\0\0\x01b\x06f [v2]\x02\0\x01\0\x02\x01x";

    #[test]
    fn original_names() {
        let rename = |module: &str, name: &str| Rename {
            module: module.to_owned(),
            original: "f".to_owned(),
            name: name.to_owned(),
        };
        let renames = [("a", "f [v2]"), ("a", "f [v3]"), ("b", "f [v2]")];
        let renames = renames.map(|(module, name)| rename(module, name));
        let map = ModuleImportMap::of(renames.to_vec()).ok();
        let renamed = RENAMED;
        let original = Original::of(renamed, map.as_ref()).expect("memory");
        assert_eq!(&*original.module, REPEATS);
        for offset in 0..=REPEATS.len() {
            let at = original.renamed_offset(offset);
            // where the import section ends
            let is_after = offset >= 48;
            let more = renamed.len() - REPEATS.len();
            assert_eq!(at, offset + if is_after { more } else { 0 });
            if is_after {
                assert_eq!(renamed.get(at), REPEATS.get(offset));
            }
        }
        let same = Original::of(renamed, None).expect("memory");
        assert_eq!((&*same.module, same.renamed_offset(100)), (renamed, 100));
        let other = Original::of(REPEATS, map.as_ref()).expect("memory");
        assert_eq!(&*other.module, REPEATS);
        for length in 0..renamed.len() {
            Original::of(&renamed[..length], map.as_ref()).expect("memory");
        }
    }

    /// The size of the import section has one byte, and with the renamed import two.
    #[test]
    fn longer_sizes() {
        let long = "a".repeat(109);
        let import = |name: &str| [b"\x01a", &[name.len() as u8][..], name.as_bytes(), b"\0\0"].concat();
        let module = |size: &[u8], second: &str| {
            let imports = [import(&long), import("f"), import(second)].concat();
            [b"\0asm\x01\0\0\0\x02", size, b"\x03", &imports[..], b"\x08\x01\0"].concat()
        };
        let (original, renamed) = (module(&[0x7f], "f"), module(&[0x84, 1], "f [v2]"));
        let rename = Rename {
            module: "a".to_owned(),
            original: "f".to_owned(),
            name: "f [v2]".to_owned(),
        };
        let map = ModuleImportMap::of(vec![rename]).ok();
        let found = Original::of(&renamed, map.as_ref()).expect("memory");
        assert_eq!(&*found.module, original);
        let offsets = [8, 9, 10, 137, 139, original.len()].map(|it| found.renamed_offset(it));
        assert_eq!(offsets, [8, 9, 11, 143, 145, renamed.len()]);
    }
}
