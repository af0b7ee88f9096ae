//! Reading and writing of the bytes of core modules: numbers, sections, imports and function types.

use crate::core_types::{FuncType, ValType};
use crate::memory::OutOfMemory;

/// The header of a module.
pub(crate) const HEADER: &[u8] = b"\0asm\x01\0\0\0";

/// The id of the import section.
const IMPORTS: u8 = 2;

/// The first byte.
fn byte(rest: &mut &[u8]) -> Option<u8> {
    let (byte, others) = rest.split_first()?;
    *rest = others;
    Some(*byte)
}

/// A number as LEB128, the low seven bits first.
pub(crate) fn number(rest: &mut &[u8]) -> Option<usize> {
    let mut number = 0;
    for shift in (0..usize::BITS).step_by(7) {
        let byte = byte(rest)?;
        number |= usize::from(byte & 127) << shift;
        if byte < 128 {
            return Some(number);
        }
    }
    None
}

/// The bytes of a name, or of the content of a section.
pub(crate) fn sized<'a>(rest: &mut &'a [u8]) -> Option<&'a [u8]> {
    let length = number(rest)?;
    let (bytes, others) = rest.split_at_checked(length)?;
    *rest = others;
    Some(bytes)
}

/// A type of values: a byte, or one that says that a reference is meant, and to what.
fn skip_type(rest: &mut &[u8]) -> Option<()> {
    match byte(rest)? {
        0x63 | 0x64 => number(rest).map(drop),
        _ => Some(()),
    }
}

fn skip_limits(rest: &mut &[u8]) -> Option<()> {
    let flags = byte(rest)?;
    number(rest)?;
    // a maximum, and the exponent of a page's bytes
    for flag in [1, 8] {
        if flags & flag != 0 {
            number(rest)?;
        }
    }
    Some(())
}

/// An import section: its content, and how many bytes of the module are before it and with it.
pub(crate) struct ImportSection<'a> {
    pub(crate) content: &'a [u8],
    pub(crate) start: usize,
    pub(crate) end: usize,
}

/// The import section of a module, up to which all sections have the lengths that they say.
pub(crate) fn import_section(module: &[u8]) -> Option<ImportSection<'_>> {
    let mut rest = module.strip_prefix(HEADER)?;
    loop {
        let start = module.len() - rest.len();
        let id = byte(&mut rest)?;
        let content = sized(&mut rest)?;
        if id == IMPORTS {
            let end = module.len() - rest.len();
            return Some(ImportSection {
                content,
                start,
                end,
            });
        }
    }
}

/// An import: its names, and what it is, as that is spelled.
pub(crate) struct ImportEntry<'a> {
    pub(crate) module: &'a [u8],
    pub(crate) name: &'a [u8],
    pub(crate) what: &'a [u8],
}

/// The imports of an import section; `None` in the place of one that can't be read.
pub(crate) fn imports(content: &[u8]) -> impl Iterator<Item = Option<ImportEntry<'_>>> {
    let mut rest = content;
    let count = number(&mut rest).unwrap_or_default();
    (0..count).map(move |_| {
        let (module, name) = (sized(&mut rest)?, sized(&mut rest)?);
        let whole = rest;
        match byte(&mut rest)? {
            0 => {
                number(&mut rest)?;
            }
            1 => {
                skip_type(&mut rest)?;
                skip_limits(&mut rest)?;
            }
            2 => skip_limits(&mut rest)?,
            3 => {
                skip_type(&mut rest)?;
                byte(&mut rest)?;
            }
            4 => {
                byte(&mut rest)?;
                number(&mut rest)?;
            }
            _ => return None,
        }
        let what = whole.get(..whole.len() - rest.len())?;
        Some(ImportEntry { module, name, what })
    })
}

/// Bytes that are written piece by piece. All that fails is an allocation.
#[derive(Default)]
pub(crate) struct Bytes(pub(crate) Vec<u8>);

impl Bytes {
    pub(crate) fn put(&mut self, bytes: &[u8]) -> Result<(), OutOfMemory> {
        self.0.try_reserve(bytes.len())?;
        self.0.extend_from_slice(bytes);
        Ok(())
    }

    /// A number as LEB128, in the fewest bytes.
    pub(crate) fn put_number(&mut self, mut number: usize) -> Result<(), OutOfMemory> {
        while number >= 128 {
            self.put(&[(number % 128) as u8 | 128])?;
            number /= 128;
        }
        self.put(&[number as u8])
    }

    /// Bytes after how many they are.
    pub(crate) fn put_sized(&mut self, bytes: &[u8]) -> Result<(), OutOfMemory> {
        self.put_number(bytes.len())?;
        self.put(bytes)
    }

    /// The import section with this content.
    pub(crate) fn put_import_section(&mut self, content: &[u8]) -> Result<(), OutOfMemory> {
        self.put(&[IMPORTS])?;
        self.put_sized(content)
    }

    /// A function type: the byte that it begins with, its parameters and its results.
    pub(crate) fn put_func_type(&mut self, ty: &FuncType) -> Result<(), OutOfMemory> {
        self.put(&[0x60])?;
        for types in [&ty.params, &ty.results] {
            self.put_number(types.len())?;
            types.iter().try_for_each(|ty| self.put_val_type(*ty))?;
        }
        Ok(())
    }

    fn put_val_type(&mut self, ty: ValType) -> Result<(), OutOfMemory> {
        self.put(match ty {
            ValType::I32 => b"\x7f",
            ValType::I64 => b"\x7e",
            ValType::F32 => b"\x7d",
            ValType::F64 => b"\x7c",
            ValType::V128 => b"\x7b",
            ValType::FuncRef => b"\x70",
            ValType::ExternRef => b"\x6f",
            ValType::FuncRefNonNull => b"\x64\x70",
            ValType::ExternRefNonNull => b"\x64\x6f",
            ValType::TypeRef { nullable, index } => {
                self.put(if nullable { b"\x63" } else { b"\x64" })?;
                return self.put_type_index(index);
            }
        })
    }

    /// The index of a type, as a signed number in the fewest bytes: the last has a bit for the sign, which is 0.
    fn put_type_index(&mut self, mut index: u32) -> Result<(), OutOfMemory> {
        while index >= 64 {
            self.put(&[(index % 128) as u8 | 128])?;
            index /= 128;
        }
        self.put(&[index as u8])
    }
}

#[cfg(test)]
mod tests {
    use super::{Bytes, import_section, imports, number};
    use crate::core_types::{FuncType, ValType};

    #[test]
    fn numbers() {
        assert_eq!(number(&mut &[0][..]), Some(0));
        assert_eq!(number(&mut &[0xe5, 0x8e, 0x26][..]), Some(624_485));
        assert_eq!(number(&mut &[0x80][..]), None);
        for wanted in [0, 1, 127, 128, 16_383, 16_384, 624_485, usize::MAX] {
            let mut bytes = Bytes::default();
            bytes.put_number(wanted).expect("memory");
            assert_eq!(number(&mut &bytes.0[..]), Some(wanted));
        }
    }

    #[test]
    fn sections() {
        let module = b"\0asm\x01\0\0\0\0\x02\x01a\x01\x04\x01\x60\0\0\x02\x81\0\0";
        let found = import_section(module).expect("imports");
        assert_eq!(
            (found.content, found.start, found.end),
            (&b"\0"[..], 18, 22)
        );
        assert!(import_section(&module[..18]).is_none());
        assert!(import_section(&module[..20]).is_none());
        assert!(import_section(b"\0asm\x0d\0\x01\0\x02\x01\0").is_none());
    }

    /// Types of each kind, and indices that need a byte more for their sign.
    #[test]
    fn function_types() {
        let reference = |nullable, index| ValType::TypeRef { nullable, index };
        let ty = FuncType {
            params: vec![
                ValType::I32,
                ValType::I64,
                ValType::F32,
                ValType::F64,
                ValType::V128,
                ValType::FuncRef,
                ValType::ExternRef,
                ValType::FuncRefNonNull,
                ValType::ExternRefNonNull,
            ],
            results: vec![
                reference(true, 0),
                reference(false, 63),
                reference(true, 64),
                reference(false, u32::MAX),
            ],
        };
        let mut bytes = Bytes::default();
        bytes.put_func_type(&ty).expect("memory");
        let params = b"\x60\x09\x7f\x7e\x7d\x7c\x7b\x70\x6f\x64\x70\x64\x6f";
        let results = b"\x04\x63\0\x64\x3f\x63\xc0\0\x64\xff\xff\xff\xff\x0f";
        assert_eq!(bytes.0, [&params[..], results].concat());
    }

    /// An import of each kind.
    #[test]
    fn kinds_of_imports() {
        let whats: [&[u8]; 8] = [
            b"\0\x80\x01",
            b"\x01\x70\0\x01",
            b"\x01\x63\x6f\x01\x01\x90\x4e",
            b"\x02\0\x01",
            b"\x02\x0b\x01\x90\x4e\0",
            b"\x03\x7f\0",
            b"\x03\x64\x01\x01",
            b"\x04\0\x03",
        ];
        let mut content = vec![whats.len() as u8];
        for what in whats {
            content.extend(b"\x01m\x02fg");
            content.extend(what);
        }
        let found: Vec<_> = imports(&content).map(|it| it.expect("an import")).collect();
        for (import, what) in found.iter().zip(whats) {
            assert_eq!((import.module, import.name), (&b"m"[..], &b"fg"[..]));
            assert_eq!(import.what, what);
        }
        assert_eq!(found.len(), whats.len());
        assert!(imports(b"\x01\0\0\x05").all(|it| it.is_none()));
        assert!(
            imports(&content[..content.len() - 1])
                .last()
                .is_some_and(|it| it.is_none())
        );
    }
}
