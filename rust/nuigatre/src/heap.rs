//! The heap of the archive: the three functions that it calls, over the C library's allocator.
//!
//! They owe a block of the size that is asked for, aligned to `align`, which is 16 at most, as all blocks of `malloc`
//! are on 64-bit Linux. Where there is none, `ok` is false, and `block` is any pointer but null. A size of 0 asks for a
//! block too.

#![cfg_attr(
    not(all(
        target_os = "linux",
        any(target_arch = "x86_64", target_arch = "aarch64")
    )),
    allow(dead_code)
)]

use std::ffi::c_void;
use std::ptr;

/// The instruction that goes on somewhere else.
#[cfg(all(target_os = "linux", target_arch = "x86_64"))]
macro_rules! jump {
    () => {
        "jmp"
    };
}

#[cfg(all(target_os = "linux", target_arch = "aarch64"))]
macro_rules! jump {
    () => {
        "b"
    };
}

// The names that the archive calls. They are hidden: a shared library that this crate is part of does not export them, as
// it would functions that are `no_mangle`, so each calls its own. They are weak: of two versions of this crate in one program
// one has the heap of both, which is the C library's.
#[cfg(all(
    target_os = "linux",
    any(target_arch = "x86_64", target_arch = "aarch64")
))]
std::arch::global_asm!(
    ".pushsection .text.rattle_heap, \"ax\", @progbits",
    ".weak rattle_alloc",
    ".hidden rattle_alloc",
    ".type rattle_alloc, @function",
    concat!("rattle_alloc: ", jump!(), " {alloc}"),
    ".weak rattle_realloc",
    ".hidden rattle_realloc",
    ".type rattle_realloc, @function",
    concat!("rattle_realloc: ", jump!(), " {realloc}"),
    ".weak rattle_dealloc",
    ".hidden rattle_dealloc",
    ".type rattle_dealloc, @function",
    concat!("rattle_dealloc: ", jump!(), " {dealloc}"),
    ".popsection",
    alloc = sym alloc,
    realloc = sym reallocate,
    dealloc = sym dealloc,
);

unsafe extern "C" {
    fn malloc(size: usize) -> *mut c_void;
    fn realloc(block: *mut c_void, size: usize) -> *mut c_void;
    fn free(block: *mut c_void);
}

/// An allocation that may have failed.
#[repr(C)]
struct Allocated {
    ok: bool,
    block: *mut c_void,
}

impl Allocated {
    fn failed() -> Self {
        Allocated {
            ok: false,
            block: ptr::dangling_mut::<u8>().cast(),
        }
    }

    /// The answer of the C library.
    fn of(block: *mut c_void) -> Self {
        if block.is_null() {
            Allocated::failed()
        } else {
            Allocated { ok: true, block }
        }
    }
}

extern "C" fn alloc(size: usize, align: usize) -> Allocated {
    if !counts::may_allocate() {
        return Allocated::failed();
    }
    // SAFETY: `malloc` requires nothing.
    let allocated = Allocated::of(unsafe { malloc(size.max(align)) });
    counts::add(i64::from(allocated.ok));
    allocated
}

extern "C" fn reallocate(block: *mut c_void, _kept: usize, size: usize, align: usize) -> Allocated {
    if !counts::may_allocate() {
        return Allocated::failed();
    }
    // SAFETY: the block is one that `alloc` or this function gave and that was not given back, as is proved of
    // the archive.
    Allocated::of(unsafe { realloc(block, size.max(align)) })
}

extern "C" fn dealloc(block: *mut c_void) {
    counts::add(-1);
    // SAFETY: as above.
    unsafe { free(block) }
}

/// Nothing is counted but in tests.
#[cfg(not(test))]
mod counts {
    pub(super) fn may_allocate() -> bool {
        true
    }

    pub(super) fn add(_blocks: i64) {}
}

/// The blocks of this thread, those of this crate among them, and how many more of its allocations may succeed.
#[cfg(test)]
pub(crate) mod counts {
    use std::cell::Cell;

    thread_local! {
        static HELD: Cell<i64> = const { Cell::new(0) };
        static LEFT: Cell<u64> = const { Cell::new(u64::MAX) };
        static ALONE: Cell<bool> = const { Cell::new(false) };
        static FAILED: Cell<bool> = const { Cell::new(false) };
    }

    /// How many blocks were allocated on this thread, less those that were given back.
    pub(crate) fn held() -> i64 {
        HELD.get()
    }

    /// The next `count` allocations of this thread may succeed, and all after them fail.
    pub(crate) fn fail_after(count: u64) {
        fail(count, false);
    }

    /// The next `count` allocations of this thread may succeed, and the one after them fails; all later ones may succeed.
    pub(crate) fn fail_once_after(count: u64) {
        fail(count, true);
    }

    fn fail(count: u64, alone: bool) {
        LEFT.set(count);
        ALONE.set(alone);
        FAILED.set(false);
    }

    /// Whether an allocation of this thread failed since it was said which fail.
    pub(crate) fn has_failed() -> bool {
        FAILED.get()
    }

    pub(crate) fn may_allocate() -> bool {
        let left = LEFT.get();
        if left > 0 {
            LEFT.set(left - 1);
            return true;
        }
        FAILED.set(true);
        if ALONE.get() {
            LEFT.set(u64::MAX);
        }
        false
    }

    pub(crate) fn add(blocks: i64) {
        HELD.set(HELD.get() + blocks);
    }
}
