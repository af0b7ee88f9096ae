//! Allocations that may fail. All memory of this crate is asked for here, or by `try_reserve`.

use std::collections::TryReserveError;
use std::fmt::{self, Write};

/// An allocation failed.
#[derive(Clone, Copy, Debug, PartialEq, Eq)]
pub(crate) struct OutOfMemory;

impl From<TryReserveError> for OutOfMemory {
    fn from(_: TryReserveError) -> Self {
        OutOfMemory
    }
}

/// Appends an item.
pub(crate) fn push<T>(items: &mut Vec<T>, item: T) -> Result<(), OutOfMemory> {
    items.try_reserve(1)?;
    items.push(item);
    Ok(())
}

/// The items of an iterator.
pub(crate) fn collect<T>(items: impl IntoIterator<Item = T>) -> Result<Vec<T>, OutOfMemory> {
    let items = items.into_iter();
    let mut all = Vec::new();
    all.try_reserve_exact(items.size_hint().0)?;
    for item in items {
        push(&mut all, item)?;
    }
    Ok(all)
}

/// Appends a text.
pub(crate) fn push_str(out: &mut String, text: &str) -> Result<(), OutOfMemory> {
    out.try_reserve(text.len())?;
    out.push_str(text);
    Ok(())
}

/// A copy of a text.
pub(crate) fn string(text: &str) -> Result<String, OutOfMemory> {
    let mut copy = String::new();
    copy.try_reserve_exact(text.len())?;
    copy.push_str(text);
    Ok(copy)
}

/// These bytes, one slice after another.
pub(crate) fn concat<'a>(
    slices: impl Iterator<Item = &'a [u8]> + Clone,
) -> Result<Vec<u8>, OutOfMemory> {
    let mut all = Vec::new();
    let lengths = slices.clone().map(<[u8]>::len);
    // the same bytes may be there often
    all.try_reserve_exact(lengths.fold(0, usize::saturating_add))?;
    slices.for_each(|slice| all.extend_from_slice(slice));
    Ok(all)
}

/// The bytes without most of the room after them, where there is memory for a copy.
pub(crate) fn fitted(bytes: Vec<u8>) -> Vec<u8> {
    if bytes.len() > bytes.capacity() / 2 {
        return bytes;
    }
    concat([bytes.as_slice()].into_iter()).unwrap_or(bytes)
}

/// As the function before, of a text.
pub(crate) fn fitted_text(text: String) -> String {
    if text.len() > text.capacity() / 2 {
        return text;
    }
    string(&text).unwrap_or(text)
}

/// A value on the heap, or nothing.
#[derive(Clone, PartialEq, Eq)]
pub(crate) struct Held<T>(Vec<T>);

impl<T> Held<T> {
    pub(crate) fn of(value: Option<T>) -> Result<Self, OutOfMemory> {
        Ok(Held(collect(value)?))
    }

    pub(crate) fn get(&self) -> Option<&T> {
        self.0.first()
    }

    pub(crate) fn into_option(mut self) -> Option<T> {
        self.0.pop()
    }
}

/// A text that is written piece by piece. All that fails is an allocation.
#[derive(Default)]
pub(crate) struct Text(pub(crate) String);

impl Text {
    pub(crate) fn put(&mut self, text: &str) -> Result<(), OutOfMemory> {
        push_str(&mut self.0, text)
    }

    pub(crate) fn put_args(&mut self, arguments: fmt::Arguments<'_>) -> Result<(), OutOfMemory> {
        self.write_fmt(arguments).map_err(|_| OutOfMemory)
    }
}

impl Write for Text {
    fn write_str(&mut self, text: &str) -> fmt::Result {
        self.put(text).map_err(|_| fmt::Error)
    }
}
