//! Values of the worlds' types in core modules: the core values that they are flattened to, where memories have 32
//! bits, and the canonical options that they need.

use crate::core_types::{FuncType, ValType};
use crate::ids::TypeId;
use crate::json::{Reader, Value};
use crate::memory::{OutOfMemory, collect, push};
use crate::read::{Unread, optional};
use crate::required_options::RequiredOptions;
use crate::wit_types::Type;
use std::iter;

/// So many core values are passed by themselves; a pointer is in the place of more.
const MAX_FLAT: usize = 16;

/// The form of a value in core modules.
#[derive(Clone, Debug, PartialEq, Eq)]
pub(crate) struct Shape {
    /// The first core values.
    flat: [ValType; MAX_FLAT],
    /// How many there are, or one more than are in `flat`.
    count: usize,
    /// The options without which the value can't be read from a core module.
    lifting: RequiredOptions,
}

impl Shape {
    const EMPTY: Shape = Shape {
        flat: [ValType::I32; MAX_FLAT],
        count: 0,
        lifting: RequiredOptions::empty(),
    };

    fn of(types: impl IntoIterator<Item = ValType>, lifting: RequiredOptions) -> Shape {
        let mut shape = Shape::EMPTY;
        types.into_iter().for_each(|ty| shape.push(ty));
        shape.lifting = lifting;
        shape
    }

    /// That of a type which no world defines.
    fn of_plain(ty: Type) -> Shape {
        let flat = match ty {
            Type::U64 | Type::S64 => ValType::I64,
            Type::F32 => ValType::F32,
            Type::F64 => ValType::F64,
            Type::String => {
                let lifting = RequiredOptions::MEMORY | RequiredOptions::STRING_ENCODING;
                return Shape::of([ValType::I32; 2], lifting);
            }
            _ => ValType::I32,
        };
        Shape::of([flat], RequiredOptions::empty())
    }

    fn push(&mut self, ty: ValType) {
        if let Some(last) = self.flat.get_mut(self.count) {
            *last = ty;
        }
        self.count = MAX_FLAT.min(self.count) + 1;
    }

    /// The core values; `None` where they are too many to be passed by themselves.
    fn flat(&self) -> Option<&[ValType]> {
        self.flat.get(..self.count)
    }

    /// Appends the values of a field.
    fn append(&mut self, field: &Shape) {
        self.lifting |= field.lifting;
        let more = field.count.saturating_sub(MAX_FLAT);
        let types = field.flat.iter().take(field.count);
        types.for_each(|ty| self.push(*ty));
        self.count = (MAX_FLAT + 1).min(self.count + more);
    }

    /// Joins the values after the first one with those of a case.
    fn join(&mut self, case: &Shape) {
        self.lifting |= case.lifting;
        let own = self.count;
        self.count = own.max((MAX_FLAT + 1).min(1 + case.count));
        for (at, ty) in (1..MAX_FLAT).zip(&case.flat[..case.count.min(MAX_FLAT)]) {
            self.flat[at] = if at < own {
                joined(self.flat[at], *ty)
            } else {
                *ty
            };
        }
    }

    /// The options without which the value can't be written to a core module.
    pub(crate) fn lowering(&self) -> RequiredOptions {
        if self.lifting.contains(RequiredOptions::MEMORY) {
            self.lifting | RequiredOptions::REALLOC
        } else {
            self.lifting
        }
    }

    /// The options without which the value can't be read from a core module.
    pub(crate) fn lifting(&self) -> RequiredOptions {
        self.lifting
    }

    /// The memory and the encoding that a function with such parameters and results needs where it is lifted.
    fn passing(params: &Shape, result: &Shape) -> RequiredOptions {
        let mut options = params.lifting | result.lifting;
        if params.flat().is_none() || result.count > 1 {
            options |= RequiredOptions::MEMORY;
        }
        options
    }

    /// The options that a function with such parameters and results needs where it is lifted synchronously: a realloc too,
    /// where the caller's component puts parameters into memory.
    pub(crate) fn lifted(params: &Shape, result: &Shape) -> RequiredOptions {
        let mut options = Shape::passing(params, result);
        if params.flat().is_none() || params.lifting.contains(RequiredOptions::MEMORY) {
            options |= RequiredOptions::REALLOC;
        }
        options
    }

    /// The core type of `task.return` of a function with such parameters and results, and what it needs: what the function
    /// needs where it is lifted, but for a realloc.
    pub(crate) fn task_return(
        params: &Shape,
        result: &Shape,
    ) -> Result<(FuncType, RequiredOptions), OutOfMemory> {
        let options = Shape::passing(params, result);
        let passed = result.flat().unwrap_or(&[ValType::I32]);
        let ty = FuncType {
            params: collect(passed.iter().copied())?,
            results: Vec::new(),
        };
        Ok((ty, options))
    }
}

/// The core type that holds values of either.
fn joined(one: ValType, other: ValType) -> ValType {
    match (one, other) {
        (ValType::I32, ValType::F32) | (ValType::F32, ValType::I32) => ValType::I32,
        _ if one == other => one,
        _ => ValType::I64,
    }
}

/// How a type is made of others.
#[derive(Clone, Copy, Debug, PartialEq, Eq)]
enum Form {
    /// Of all of them, one after another.
    Fields,
    /// Of one of them.
    Cases,
    /// Of as many values of it as there are.
    List,
    /// It is so many numbers of 32 bits, whatever others are for.
    Words(usize),
}

/// The parts of a type.
struct Kind {
    form: Form,
    parts: Vec<Option<Type>>,
}

/// The types of resolved worlds.
pub(crate) struct Types {
    kinds: Vec<Kind>,
    shapes: Vec<Option<Shape>>,
}

impl Types {
    /// Reads them from JSON that the archive took.
    pub(crate) fn read(reader: &mut Reader<'_>) -> Result<Self, Unread> {
        let mut kinds = Vec::new();
        reader.elements(|reader| Ok(push(&mut kinds, read_type(reader)?)?))?;
        Ok(Types {
            shapes: collect(kinds.iter().map(|_| None))?,
            kinds,
        })
    }

    /// The type that a future or a stream carries; `None` where it carries nothing.
    pub(crate) fn payload(&self, id: TypeId) -> Result<Option<Type>, Unread> {
        Ok(*self.kind(id)?.parts.first().ok_or(Unread::Unknown)?)
    }

    fn kind(&self, id: TypeId) -> Result<&Kind, Unread> {
        self.kinds.get(id.0 as usize).ok_or(Unread::Unknown)
    }

    /// The shape of a value; that of no value where there is no type.
    pub(crate) fn shape(&mut self, ty: Option<Type>) -> Result<Shape, Unread> {
        if let Some(Type::Id(id)) = ty {
            self.add_shapes(id)?;
        }
        self.known(ty)
    }

    /// The shape of values one after another.
    pub(crate) fn shape_of_all(&mut self, types: &[Option<Type>]) -> Result<Shape, Unread> {
        let mut all = Shape::EMPTY;
        for ty in types {
            all.append(&self.shape(*ty)?);
        }
        Ok(all)
    }

    /// As the method before, of a type whose shape is known.
    fn known(&self, ty: Option<Type>) -> Result<Shape, Unread> {
        match ty {
            None => Ok(Shape::EMPTY),
            Some(Type::Id(id)) => {
                let shape = self.shapes.get(id.0 as usize).cloned();
                shape.flatten().ok_or(Unread::Unknown)
            }
            Some(plain) => Ok(Shape::of_plain(plain)),
        }
    }

    /// Whether there is a type of this id, whose shape is not known yet.
    fn is_unknown(&self, id: TypeId) -> bool {
        self.shapes.get(id.0 as usize).is_some_and(Option::is_none)
    }

    /// Finds the shapes of a type and of all that it is made of, each once.
    fn add_shapes(&mut self, id: TypeId) -> Result<(), Unread> {
        // types that wait for their parts, each with how many of these were looked at
        let mut open = Vec::new();
        push(&mut open, (id, 0))?;
        while let Some((id, seen)) = open.last_mut() {
            let id = *id;
            let kind = self.kind(id)?;
            let part = match kind.form {
                Form::Words(_) => None,
                _ => kind.parts.get(*seen),
            };
            *seen += 1;
            match part {
                Some(Some(Type::Id(part))) if self.is_unknown(*part) => {
                    push(&mut open, (*part, 0))?;
                }
                Some(_) => {}
                None => {
                    self.shapes[id.0 as usize] = Some(self.shape_of(self.kind(id)?)?);
                    open.pop();
                }
            }
            // one that is made of itself is none that the archive takes
            if open.len() > self.kinds.len() {
                return Err(Unread::Unknown);
            }
        }
        Ok(())
    }

    /// The shape of a type by those of its parts.
    fn shape_of(&self, kind: &Kind) -> Result<Shape, Unread> {
        let word = || iter::repeat(ValType::I32);
        let mut shape = match kind.form {
            Form::Words(count) => {
                // more than too many makes no difference
                let count = count.min(MAX_FLAT + 1);
                return Ok(Shape::of(word().take(count), RequiredOptions::empty()));
            }
            Form::Fields => Shape::EMPTY,
            Form::Cases => Shape::of(word().take(1), RequiredOptions::empty()),
            Form::List => Shape::of(word().take(2), RequiredOptions::MEMORY),
        };
        for part in &kind.parts {
            let part = self.known(*part)?;
            match kind.form {
                Form::Fields => shape.append(&part),
                Form::Cases => shape.join(&part),
                _ => shape.lifting |= part.lifting,
            }
        }
        Ok(shape)
    }
}

/// Reads the member of this name of an object, if it has one, and goes past the others.
pub(crate) fn read_member<T>(
    reader: &mut Reader<'_>,
    wanted: &str,
    mut read: impl FnMut(&mut Reader<'_>) -> Result<T, Unread>,
) -> Result<Option<T>, Unread> {
    let mut found = None;
    reader.members(|reader, name| {
        if name != wanted {
            return reader.skip();
        }
        found = Some(read(reader)?);
        Ok(())
    })?;
    Ok(found)
}

/// Reads a type where it is used; `None` of null.
fn read_use(reader: &mut Reader<'_>) -> Result<Option<Type>, Unread> {
    optional(&Value::parse(reader.raw()?)?)
}

/// Reads a type.
fn read_type(reader: &mut Reader<'_>) -> Result<Kind, Unread> {
    let kind = read_member(reader, "kind", |reader| {
        if reader.peek() == Some(b'"') {
            reader.skip()?;
            return Ok(words(1, Vec::new()));
        }
        let mut kind = None;
        reader.members(|reader, name| {
            kind = Some(read_kind(reader, &name)?);
            Ok(())
        })?;
        kind.ok_or(Unread::Unknown)
    })?;
    kind.ok_or(Unread::Unknown)
}

/// A function: the types of its parameters, and of its result.
#[derive(Default)]
pub(crate) struct Function {
    pub(crate) params: Vec<Option<Type>>,
    pub(crate) result: Option<Type>,
}

/// Reads a function.
pub(crate) fn read_function(reader: &mut Reader<'_>) -> Result<Function, Unread> {
    let mut function = Function::default();
    reader.members(|reader, name| {
        match &*name {
            "params" => {
                let params = &mut function.params;
                reader.elements(|reader| Ok(push(params, read_typed(reader)?)?))?;
            }
            "result" => function.result = read_use(reader)?,
            _ => reader.skip()?,
        }
        Ok(())
    })?;
    Ok(function)
}

fn words(count: usize, parts: Vec<Option<Type>>) -> Kind {
    let form = Form::Words(count);
    Kind { form, parts }
}

/// Reads what a type of this kind is made of.
fn read_kind(reader: &mut Reader<'_>, name: &str) -> Result<Kind, Unread> {
    let form = match name {
        "variant" | "option" | "result" => Form::Cases,
        "list" => Form::List,
        _ => Form::Fields,
    };
    let parts = match name {
        "record" => read_list(reader, "fields", read_typed)?,
        "variant" => read_list(reader, "cases", read_typed)?,
        "tuple" => read_list(reader, "types", read_use)?,
        "flags" => {
            let flags = read_list(reader, "flags", |reader| reader.skip().map(|()| None))?;
            return Ok(words(flags.len().div_ceil(32), Vec::new()));
        }
        "result" => read_result(reader)?,
        "option" | "list" | "type" => collect([read_use(reader)?])?,
        "future" | "stream" => return Ok(words(1, collect([read_use(reader)?])?)),
        "enum" | "handle" => {
            reader.skip()?;
            return Ok(words(1, Vec::new()));
        }
        _ => return Err(Unread::Unknown),
    };
    Ok(Kind { form, parts })
}

/// Reads the list that is the member of this name of an object.
fn read_list(
    reader: &mut Reader<'_>,
    name: &str,
    mut read: impl FnMut(&mut Reader<'_>) -> Result<Option<Type>, Unread>,
) -> Result<Vec<Option<Type>>, Unread> {
    let list = read_member(reader, name, |reader| {
        let mut parts = Vec::new();
        reader.elements(|reader| Ok(push(&mut parts, read(reader)?)?))?;
        Ok(parts)
    })?;
    list.ok_or(Unread::Unknown)
}

/// Reads a field or a case: its type.
fn read_typed(reader: &mut Reader<'_>) -> Result<Option<Type>, Unread> {
    Ok(read_member(reader, "type", read_use)?.flatten())
}

/// Reads both types of a result.
fn read_result(reader: &mut Reader<'_>) -> Result<Vec<Option<Type>>, Unread> {
    let mut parts = Vec::new();
    reader.members(|reader, name| match &*name {
        "ok" | "err" => Ok(push(&mut parts, read_use(reader)?)?),
        _ => reader.skip(),
    })?;
    Ok(parts)
}

#[cfg(test)]
mod tests {
    use super::{MAX_FLAT, Shape, Types};
    use crate::core_types::ValType::{F64, I32, I64};
    use crate::ids::TypeId;
    use crate::json::Reader;
    use crate::read::Unread;
    use crate::required_options::RequiredOptions;
    use crate::wit_types::Type;

    /// The shape of the last of types of these kinds.
    fn last(kinds: &[String]) -> Result<Shape, Unread> {
        let types: Vec<_> = kinds
            .iter()
            .map(|kind| format!("{{\"kind\":{kind}}}"))
            .collect();
        let mut types = Types::read(&mut Reader::new(&format!("[{}]", types.join(","))))?;
        types.shape(Some(Type::Id(TypeId(kinds.len() as u32 - 1))))
    }

    fn of_kinds(kinds: &[&str]) -> Result<Shape, Unread> {
        last(
            &kinds
                .iter()
                .map(|kind| (*kind).to_owned())
                .collect::<Vec<_>>(),
        )
    }

    #[test]
    fn kinds() {
        let flags = |count: usize| {
            let flags = vec!["{\"name\":\"a\"}"; count].join(",");
            of_kinds(&[&format!("{{\"flags\":{{\"flags\":[{flags}]}}}}")])
                .expect("flags")
                .count
        };
        assert_eq!(
            [1, 32, 33, 64, 65, 512, 513, 9999].map(flags),
            [1, 1, 2, 2, 3, 16, 17, 17]
        );
        let variant = of_kinds(&[
            r#"{"record":{"fields":[{"name":"a","type":"f32"},{"type":"f64","docs":{"x":-1}}]}}"#,
            "\"resource\"",
            r#"{"handle":{"borrow":1}}"#,
            r#"{"enum":{"cases":[{"name":"a"},{"name":"b"}]}}"#,
            r#"{"variant":{"cases":[{"name":"a"},{"type":2},{"type":0,"name":"c"},{"type":null},{"type":"string"}]}}"#,
            r#"{"tuple":{"types":[4,3,"f64"]}}"#,
        ]);
        let texts = RequiredOptions::MEMORY | RequiredOptions::STRING_ENCODING;
        let shape = variant.expect("a shape");
        assert_eq!(shape.flat(), Some(&[I32, I32, I64, I32, F64][..]));
        assert_eq!(
            (shape.lifting(), shape.lowering()),
            (texts, texts | RequiredOptions::REALLOC)
        );
    }

    /// The options of lifted functions, as the Canonical ABI has them.
    #[test]
    fn options_of_lifted_functions() {
        let of = |types: &[Type]| {
            let mut shape = Shape::EMPTY;
            types
                .iter()
                .for_each(|ty| shape.append(&Shape::of_plain(*ty)));
            shape
        };
        let lifted =
            |params: &[Type], result: &[Type]| Shape::lifted(&of(params), &of(result)).bits();
        assert_eq!(lifted(&[], &[]), 0);
        assert_eq!(lifted(&[Type::U32; 16], &[Type::U64]), 0);
        assert_eq!(lifted(&[Type::U32; 17], &[]), 3);
        assert_eq!(lifted(&[], &[Type::U32, Type::U32]), 1);
        assert_eq!(lifted(&[Type::String], &[]), 7);
        assert_eq!(lifted(&[Type::U8], &[Type::String]), 5);
        let list = of_kinds(&[r#"{"list":"u8"}"#]).expect("a list");
        assert_eq!(Shape::lifted(&list, &Shape::EMPTY).bits(), 3);
        assert_eq!(Shape::lifted(&Shape::EMPTY, &list).bits(), 1);
    }

    /// Types that are made of others as often as can be, and each of them once.
    #[test]
    fn many() {
        let doubled = |first: &str, count: usize| {
            let next = (0..count).map(|at| format!("{{\"tuple\":{{\"types\":[{at},{at}]}}}}"));
            last(&[vec![first.to_owned()], next.collect()].concat())
                .expect("a shape")
                .count
        };
        assert_eq!(doubled(r#"{"tuple":{"types":[]}}"#, 10_000), 0);
        assert_eq!(doubled(r#"{"type":"u8"}"#, 4), MAX_FLAT);
        assert_eq!(doubled(r#"{"type":"u8"}"#, 10_000), MAX_FLAT + 1);
        let mut aliases: Vec<_> = (1..100_000)
            .map(|at| format!("{{\"type\":{at}}}"))
            .collect();
        aliases.push("{\"type\":\"s64\"}".to_owned());
        aliases.push("{\"list\":0}".to_owned());
        assert_eq!(last(&aliases).map(|it| it.count), Ok(2));
        // the archive takes none of these
        for kind in [
            r#"{"option":0}"#,
            r#"{"list":1}"#,
            "{}",
            r#"{"map":"u8"}"#,
            "[",
            "3",
        ] {
            assert_eq!(of_kinds(&[kind]), Err(Unread::Unknown), "{kind}");
        }
        assert!(of_kinds(&[r#"{"stream":0}"#]).is_ok());
    }
}
