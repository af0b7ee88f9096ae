//! Types of core modules, and core signatures of functions.

use crate::json::Value;
use crate::memory::{OutOfMemory, collect};
use crate::read::{Read, Unread, member, of_name, optional_member, show};
use std::fmt::{self, Display, Formatter};

/// A value type.
///
/// [`scan`](fn@crate::scan) has an example.
#[derive(Clone, Copy, Debug, PartialEq, Eq, Hash)]
#[allow(missing_docs)]
#[non_exhaustive]
pub enum ValType {
    I32,
    I64,
    F32,
    F64,
    V128,
    FuncRef,
    ExternRef,
    FuncRefNonNull,
    ExternRefNonNull,
    TypeRef { nullable: bool, index: u32 },
}

/// A function type. Its text is as `(i32, i64) -> i32`, with several results, or none, in parentheses too.
///
/// [`scan`](fn@crate::scan) has an example.
#[derive(Clone, Debug, PartialEq, Eq, Hash)]
pub struct FuncType {
    /// The types of the parameters.
    pub params: Vec<ValType>,
    /// The types of the results.
    pub results: Vec<ValType>,
}

/// A memory type. `initial` and `maximum` count pages.
///
/// [`scan`](fn@crate::scan) has an example.
#[derive(Clone, Copy, Debug, PartialEq, Eq, Hash)]
#[non_exhaustive]
pub struct MemoryType {
    /// Whether addresses have 64 bits.
    pub memory64: bool,
    /// Whether threads share it.
    pub shared: bool,
    /// The minimum.
    pub initial: u64,
    /// The maximum.
    pub maximum: Option<u64>,
    /// The exponent of a page's bytes; `None` means 16.
    pub page_size_log2: Option<u32>,
}

/// A table type. `initial` and `maximum` count elements.
///
/// [`scan`](fn@crate::scan) has an example.
#[derive(Clone, Copy, Debug, PartialEq, Eq, Hash)]
#[non_exhaustive]
pub struct TableType {
    /// The type of the elements.
    pub element_type: ValType,
    /// Whether indices of elements have 64 bits.
    pub table64: bool,
    /// The minimum.
    pub initial: u64,
    /// The maximum.
    pub maximum: Option<u64>,
}

/// A global type.
///
/// [`scan`](fn@crate::scan) has an example.
#[derive(Clone, Copy, Debug, PartialEq, Eq, Hash)]
#[non_exhaustive]
pub struct GlobalType {
    /// The type of the global's value.
    pub content_type: ValType,
    /// Whether it may be written.
    pub mutable: bool,
}

/// The kind of an export. Its text is `func`, `table`, `memory` or `global`.
///
/// [`scan`](fn@crate::scan) has an example.
#[derive(Clone, Copy, Debug, PartialEq, Eq, Hash)]
#[allow(missing_docs)]
#[non_exhaustive]
pub enum ExportKind {
    Func,
    Table,
    Memory,
    Global,
}

/// The type of a core parameter or result of a function. These are all: another one is a new version of this crate.
///
/// [`scan`](fn@crate::scan) has an example.
#[derive(Clone, Copy, Debug, PartialEq, Eq, Hash)]
#[allow(missing_docs)]
pub enum WasmType {
    I32,
    I64,
    F32,
    F64,
    Pointer,
    PointerOrI64,
    Length,
}

/// The core function type of a function.
///
/// [`scan`](fn@crate::scan) has an example.
#[derive(Clone, Debug, PartialEq, Eq, Hash)]
#[non_exhaustive]
pub struct WasmSignature {
    /// The core parameters.
    pub params: Vec<WasmType>,
    /// The core results.
    pub results: Vec<WasmType>,
    /// Whether all parameters are passed in memory, by one pointer.
    pub indirect_params: bool,
    /// Whether the result is passed in memory, by a pointer.
    pub retptr: bool,
}

impl FuncType {
    pub(crate) fn try_clone(&self) -> Result<FuncType, OutOfMemory> {
        let copy = |types: &[ValType]| {
            let mut copy = Vec::new();
            copy.try_reserve_exact(types.len())?;
            copy.extend_from_slice(types);
            Ok::<_, OutOfMemory>(copy)
        };
        Ok(FuncType {
            params: copy(&self.params)?,
            results: copy(&self.results)?,
        })
    }
}

impl Display for ValType {
    fn fmt(&self, f: &mut Formatter<'_>) -> fmt::Result {
        f.write_str(match self {
            ValType::I32 => "i32",
            ValType::I64 => "i64",
            ValType::F32 => "f32",
            ValType::F64 => "f64",
            ValType::V128 => "v128",
            ValType::FuncRef => "funcref",
            ValType::ExternRef => "externref",
            ValType::FuncRefNonNull => "(ref func)",
            ValType::ExternRefNonNull => "(ref extern)",
            ValType::TypeRef { nullable, index } => {
                let null = if *nullable { "null " } else { "" };
                return write!(f, "(ref {null}{index})");
            }
        })
    }
}

/// Types in parentheses.
fn write_types(types: &[ValType], f: &mut Formatter<'_>) -> fmt::Result {
    f.write_str("(")?;
    for (position, ty) in types.iter().enumerate() {
        let separator = if position == 0 { "" } else { ", " };
        write!(f, "{separator}{ty}")?;
    }
    f.write_str(")")
}

impl Display for FuncType {
    fn fmt(&self, f: &mut Formatter<'_>) -> fmt::Result {
        write_types(&self.params, f)?;
        f.write_str(" -> ")?;
        match &self.results[..] {
            [result] => write!(f, "{result}"),
            results => write_types(results, f),
        }
    }
}

impl Read for ValType {
    fn read(value: &Value<'_>) -> Result<Self, Unread> {
        let Ok(name) = value.as_str() else {
            return Ok(ValType::TypeRef {
                nullable: member(value, "nullable")?,
                index: member(value, "index")?,
            });
        };
        Ok(match name {
            "i32" => ValType::I32,
            "i64" => ValType::I64,
            "f32" => ValType::F32,
            "f64" => ValType::F64,
            "v128" => ValType::V128,
            "funcref" => ValType::FuncRef,
            "externref" => ValType::ExternRef,
            "non-null-funcref" => ValType::FuncRefNonNull,
            "non-null-externref" => ValType::ExternRefNonNull,
            _ => return Err(Unread::Unknown),
        })
    }
}

impl Read for FuncType {
    fn read(value: &Value<'_>) -> Result<Self, Unread> {
        Ok(FuncType {
            params: member(value, "params")?,
            results: member(value, "results")?,
        })
    }
}

impl Read for MemoryType {
    fn read(value: &Value<'_>) -> Result<Self, Unread> {
        Ok(MemoryType {
            memory64: member(value, "memory64")?,
            shared: member(value, "shared")?,
            initial: member(value, "initial")?,
            maximum: optional_member(value, "maximum")?,
            page_size_log2: optional_member(value, "page_size_log2")?,
        })
    }
}

impl Read for TableType {
    fn read(value: &Value<'_>) -> Result<Self, Unread> {
        Ok(TableType {
            element_type: member(value, "element_type")?,
            table64: member(value, "table64")?,
            initial: member(value, "initial")?,
            maximum: optional_member(value, "maximum")?,
        })
    }
}

impl Read for GlobalType {
    fn read(value: &Value<'_>) -> Result<Self, Unread> {
        Ok(GlobalType {
            content_type: member(value, "content_type")?,
            mutable: member(value, "mutable")?,
        })
    }
}

impl Read for ExportKind {
    fn read(value: &Value<'_>) -> Result<Self, Unread> {
        of_name(value.as_str()?, &ExportKind::ALL)
    }
}

impl ExportKind {
    const ALL: [(&'static str, ExportKind); 4] = [
        ("func", ExportKind::Func),
        ("table", ExportKind::Table),
        ("memory", ExportKind::Memory),
        ("global", ExportKind::Global),
    ];
}

impl Display for ExportKind {
    fn fmt(&self, f: &mut Formatter<'_>) -> fmt::Result {
        show(self, &ExportKind::ALL, f)
    }
}

impl MemoryType {
    /// How many bytes a page has.
    #[must_use]
    pub fn page_size(&self) -> u64 {
        1_u64
            .checked_shl(self.page_size_log2.unwrap_or(16))
            .unwrap_or_default()
    }
}

impl From<WasmType> for ValType {
    /// The type that it is where memories have 32 bits.
    fn from(ty: WasmType) -> Self {
        match ty {
            WasmType::I32 | WasmType::Pointer | WasmType::Length => ValType::I32,
            WasmType::I64 | WasmType::PointerOrI64 => ValType::I64,
            WasmType::F32 => ValType::F32,
            WasmType::F64 => ValType::F64,
        }
    }
}

impl From<&WasmSignature> for FuncType {
    /// The type of a core function of this signature, where memories have 32 bits. It ends the process where there is no
    /// memory, as `clone` does.
    fn from(signature: &WasmSignature) -> Self {
        let types = |types: &[WasmType]| types.iter().map(|ty| ValType::from(*ty)).collect();
        FuncType {
            params: types(&signature.params),
            results: types(&signature.results),
        }
    }
}

/// The type of a core function, by what it comes from.
#[derive(Clone, Copy)]
pub(crate) enum Signature<'a> {
    Own(&'a FuncType),
    /// Where memories have 32 bits.
    Lowered(&'a WasmSignature),
    /// So many parameters and results, which are numbers of 32 bits.
    Words(usize, usize),
}

impl Signature<'_> {
    pub(crate) fn func_type(self) -> Result<FuncType, OutOfMemory> {
        let types = |types: &[WasmType]| collect(types.iter().map(|ty| ValType::from(*ty)));
        let (params, results) = match self {
            Signature::Own(ty) => return ty.try_clone(),
            Signature::Lowered(signature) => {
                (types(&signature.params)?, types(&signature.results)?)
            }
            Signature::Words(params, results) => {
                let words = |count| collect((0..count).map(|_| ValType::I32));
                (words(params)?, words(results)?)
            }
        };
        Ok(FuncType { params, results })
    }
}

impl Read for WasmType {
    fn read(value: &Value<'_>) -> Result<Self, Unread> {
        Ok(match value.as_str()? {
            "i32" => WasmType::I32,
            "i64" => WasmType::I64,
            "f32" => WasmType::F32,
            "f64" => WasmType::F64,
            "pointer" => WasmType::Pointer,
            "pointer-or-i64" => WasmType::PointerOrI64,
            "length" => WasmType::Length,
            _ => return Err(Unread::Unknown),
        })
    }
}

impl Read for WasmSignature {
    fn read(value: &Value<'_>) -> Result<Self, Unread> {
        Ok(WasmSignature {
            params: member(value, "params")?,
            results: member(value, "results")?,
            indirect_params: member(value, "indirect_params")?,
            retptr: member(value, "retptr")?,
        })
    }
}
