//! A stand-in for the crates `wit-parser`, with its feature `serde`, and `id-arena`: so much of both as the page's code uses.
//! Ids belong to their arena, and can't be made of numbers, as there.

use std::marker::PhantomData;
use std::ops::Index;

/// `id_arena::Id`.
pub struct Id<T> {
    index: usize,
    of: PhantomData<fn() -> T>,
}

impl<T> Id<T> {
    pub fn index(self) -> usize {
        self.index
    }
}

impl<T> Clone for Id<T> {
    fn clone(&self) -> Self {
        *self
    }
}

impl<T> Copy for Id<T> {}

/// `id_arena::Arena`.
pub struct Arena<T> {
    items: Vec<T>,
}

impl<T> Arena<T> {
    fn of(items: Vec<T>) -> Self {
        Arena { items }
    }

    /// All items in order, with their ids.
    pub fn iter(&self) -> impl Iterator<Item = (Id<T>, &T)> {
        let of = PhantomData;
        self.items
            .iter()
            .enumerate()
            .map(move |(index, item)| (Id { index, of }, item))
    }
}

impl<T> Index<Id<T>> for Arena<T> {
    type Output = T;

    fn index(&self, id: Id<T>) -> &T {
        &self.items[id.index]
    }
}

pub struct World {
    pub name: String,
}

pub struct Interface {
    pub name: Option<String>,
}

pub struct TypeDef {
    pub name: Option<String>,
}

pub type WorldId = Id<World>;
pub type InterfaceId = Id<Interface>;
pub type TypeId = Id<TypeDef>;

pub enum WorldKey {
    Name(String),
    Interface(InterfaceId),
}

#[derive(Debug, PartialEq)]
pub enum AbiVariant {
    GuestImport,
    GuestExport,
    GuestImportAsync,
    GuestExportAsync,
    GuestExportAsyncStackful,
}

#[derive(Debug, PartialEq)]
pub enum WasmType {
    I32,
    I64,
    F32,
    F64,
    Pointer,
    PointerOrI64,
    Length,
}

pub enum Type {
    Bool,
    U8,
    U16,
    U32,
    U64,
    S8,
    S16,
    S32,
    S64,
    F32,
    F64,
    Char,
    String,
    ErrorContext,
    Id(TypeId),
}

pub struct Resolve {
    pub worlds: Arena<World>,
    pub interfaces: Arena<Interface>,
    pub types: Arena<TypeDef>,
    /// What `serde_json` makes of all of it.
    serialized: &'static str,
}

impl Resolve {
    /// Worlds with items of these names, which are serialized so.
    pub fn of(
        worlds: &[&str],
        interfaces: &[&str],
        types: &[&str],
        serialized: &'static str,
    ) -> Self {
        let own = |names: &[&str]| names.iter().map(ToString::to_string).collect::<Vec<_>>();
        let named = |names: &[&str]| own(names).into_iter().map(Some);
        Resolve {
            worlds: Arena::of(own(worlds).into_iter().map(|name| World { name }).collect()),
            interfaces: Arena::of(named(interfaces).map(|name| Interface { name }).collect()),
            types: Arena::of(named(types).map(|name| TypeDef { name }).collect()),
            serialized,
        }
    }

    /// What `serde_json::to_string` answers.
    pub fn serialized(&self) -> String {
        self.serialized.to_owned()
    }
}
