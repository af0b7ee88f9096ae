//! The archive's functions, as `crates/nuigatre/src/lib.rt` has them, and the calls of them. `checks/c-header.py` compares
//! the declarations with those, and a test calls each function with all arguments different.

use crate::error::Error;
use crate::memory::OutOfMemory;
use crate::place::About;
use crate::read::Unread;
use std::collections::hash_map::RandomState;
use std::hash::BuildHasher;
use std::marker::PhantomData;
use std::mem::MaybeUninit;
use std::sync::OnceLock;

/// A `&[u8]` as the archive has it.
#[derive(Clone, Copy)]
#[repr(C)]
pub(crate) struct Slice<'a> {
    pointer: *const u8,
    length: usize,
    bytes: PhantomData<&'a [u8]>,
}

/// The answer of a function of the archive.
#[repr(C)]
struct Answer {
    status: u32,
    fault: u32,
    length: usize,
    module_length: usize,
    position: usize,
}

const DONE: u32 = 0;
const FAULT: u32 = 1;
const TOO_SMALL: u32 = 2;
const SAME: u32 = 3;
const BAD_ARGUMENT: u32 = 4;
const MEMORY: u32 = 5;
#[cfg(test)]
const NO_SUCH_FAULT: u32 = 6;

/// The form of the calls, of messages and of answers that this crate knows: the archive's own number has to be this one. Its
/// symbols have it too, so that another version of this crate, over another form, can be part of the same program.
const ABI: u32 = 9;

unsafe extern "C" {
    #[link_name = "nuigatre9_abi"]
    safe fn nuigatre_abi() -> u32;

    #[link_name = "nuigatre9_dedupe"]
    fn nuigatre_dedupe(
        wasm: *const u8,
        wasm_length: usize,
        out: *mut u8,
        out_length: usize,
    ) -> Answer;

    #[link_name = "nuigatre9_trim"]
    fn nuigatre_trim(
        seed0: u64,
        seed1: u64,
        wasm: *const u8,
        wasm_length: usize,
        required: *const Slice<'_>,
        required_length: usize,
        has_realloc: bool,
        realloc: *const u8,
        realloc_length: usize,
        page_size_log2: u32,
        out: *mut u8,
        out_length: usize,
    ) -> Answer;

    #[link_name = "nuigatre9_why"]
    fn nuigatre_why(
        seed0: u64,
        seed1: u64,
        wasm: *const u8,
        wasm_length: usize,
        required: *const Slice<'_>,
        required_length: usize,
        out: *mut u8,
        out_length: usize,
    ) -> Answer;

    #[link_name = "nuigatre9_world"]
    fn nuigatre_world(
        seed0: u64,
        seed1: u64,
        message: *const u8,
        message_length: usize,
        modules: *const u8,
        modules_length: usize,
        out: *mut u8,
        out_length: usize,
    ) -> Answer;

    #[link_name = "nuigatre9_plan"]
    fn nuigatre_plan(
        seed0: u64,
        seed1: u64,
        message: *const u8,
        message_length: usize,
        modules: *const u8,
        modules_length: usize,
        out: *mut u8,
        out_length: usize,
    ) -> Answer;

    #[link_name = "nuigatre9_planned_world"]
    fn nuigatre_planned_world(
        seed0: u64,
        seed1: u64,
        message: *const u8,
        message_length: usize,
        modules: *const u8,
        modules_length: usize,
        out: *mut u8,
        out_length: usize,
    ) -> Answer;

    #[cfg(test)]
    #[link_name = "nuigatre9_validate"]
    fn nuigatre_validate(
        seed0: u64,
        seed1: u64,
        message: *const u8,
        message_length: usize,
        modules: *const u8,
        modules_length: usize,
        has_adapter: bool,
        adapter: *const u8,
        adapter_length: usize,
        out: *mut u8,
        out_length: usize,
    ) -> Answer;

    #[link_name = "nuigatre9_validated_module"]
    fn nuigatre_validated_module(
        seed0: u64,
        seed1: u64,
        message: *const u8,
        message_length: usize,
        modules: *const u8,
        modules_length: usize,
        has_adapter: bool,
        adapter: *const u8,
        adapter_length: usize,
        required: *const u8,
        required_length: usize,
        out: *mut u8,
        out_length: usize,
    ) -> Answer;

    #[link_name = "nuigatre9_scan"]
    fn nuigatre_scan(
        wasm: *const u8,
        wasm_length: usize,
        out: *mut u8,
        out_length: usize,
    ) -> Answer;

    #[link_name = "nuigatre9_paths"]
    fn nuigatre_paths(
        seed0: u64,
        seed1: u64,
        wasm: *const u8,
        wasm_length: usize,
        exports: *const Slice<'_>,
        exports_length: usize,
        imports: *const Slice<'_>,
        imports_length: usize,
        out: *mut u8,
        out_length: usize,
    ) -> Answer;

    #[link_name = "nuigatre9_component_paths"]
    fn nuigatre_component_paths(
        seed0: u64,
        seed1: u64,
        message: *const u8,
        message_length: usize,
        modules: *const u8,
        modules_length: usize,
        key: *const u8,
        key_length: usize,
        out: *mut u8,
        out_length: usize,
    ) -> Answer;

    #[link_name = "nuigatre9_component_imports"]
    fn nuigatre_component_imports(
        seed0: u64,
        seed1: u64,
        message: *const u8,
        message_length: usize,
        modules: *const u8,
        modules_length: usize,
        out: *mut u8,
        out_length: usize,
    ) -> Answer;

    #[cfg(test)]
    #[link_name = "nuigatre9_fault_text"]
    fn nuigatre_fault_text(call: u32, number: u32, out: *mut u8, out_length: usize) -> Answer;
}

/// Whether the library that is linked was built of what is proved. One that was compiled without its proof has a symbol
/// that no other has, and here is zero where it is not there.
pub(crate) fn is_proved() -> bool {
    #[cfg(all(target_os = "linux", target_arch = "x86_64"))]
    {
        let address: usize;
        // SAFETY: it reads the entry of a symbol in a table of the program, which the linker fills.
        unsafe {
            std::arch::asm!(
                ".weak nuigatre9_unproved",
                "mov {}, qword ptr [rip + nuigatre9_unproved@GOTPCREL]",
                out(reg) address,
                options(pure, readonly, nostack, preserves_flags),
            );
        }
        address == 0
    }
    #[cfg(all(target_os = "linux", target_arch = "aarch64"))]
    {
        let address: usize;
        // SAFETY: as above.
        unsafe {
            std::arch::asm!(
                ".weak nuigatre{form}_unproved",
                "adrp {0}, :got:nuigatre{form}_unproved",
                "ldr {0}, [{0}, :got_lo12:nuigatre{form}_unproved]",
                out(reg) address,
                form = const ABI,
                options(pure, readonly, nostack, preserves_flags),
            );
        }
        address == 0
    }
    #[cfg(not(all(
        target_os = "linux",
        any(target_arch = "x86_64", target_arch = "aarch64")
    )))]
    false
}

/// How a trim is asked for.
#[derive(Clone, Copy)]
pub(crate) struct TrimArguments<'a> {
    pub(crate) wasm: &'a [u8],
    pub(crate) required: &'a [Slice<'a>],
    pub(crate) realloc: Option<&'a str>,
    pub(crate) page_size_log2: u32,
}

/// The answer of a call, where memory did not run out.
pub(crate) enum Answered {
    /// These bytes, the first of which are modules.
    Bytes {
        bytes: Vec<u8>,
        module_length: usize,
    },
    /// The input itself.
    Same,
    /// The arguments have no answer.
    BadArgument,
    /// A fault.
    Fault(Fault),
}

/// A fault, as it is answered.
pub(crate) struct Fault {
    pub(crate) number: u32,
    /// Of a trim where the name of a missing export is among those passed. Of the calls on a message how many bytes the
    /// fault's text has.
    pub(crate) position: usize,
    /// The place of the fault, as JSON; of the calls on a message the fault's text before it.
    pub(crate) text: String,
}

impl Fault {
    /// The place of a fault of a call on a message. Its text is passed over: the number says which fault it is.
    pub(crate) fn about(&self) -> Result<Option<About>, Unread> {
        About::parse(self.text.get(self.position..).ok_or(Unread::Unknown)?)
    }
}

impl<'a> Slice<'a> {
    pub(crate) fn new(bytes: &'a [u8]) -> Self {
        Slice {
            pointer: bytes.as_ptr(),
            length: bytes.len(),
            bytes: PhantomData,
        }
    }
}

/// Renames the repeated imports of a module. The answer has the renamed module, and then the text of its renames.
/// `room` is how many bytes are made ready for it before it is known how many there are.
pub(crate) fn dedupe(wasm: &[u8], room: usize) -> Result<Answered, Error> {
    answered(room, |out| {
        // SAFETY: the declaration is that of the archive. Both slices are borrowed for the call, and `out` is its alone.
        // The archive writes to the front of `out`, and reads nothing of it.
        unsafe { nuigatre_dedupe(wasm.as_ptr(), wasm.len(), start(out), out.len()) }
    })
}

/// Trims an adapter. The answer is the trimmed adapter.
pub(crate) fn trim(arguments: TrimArguments<'_>, room: usize) -> Result<Answered, Error> {
    let TrimArguments {
        wasm,
        required,
        realloc,
        page_size_log2,
    } = arguments;
    let name = realloc.unwrap_or_default();
    let (seed0, seed1) = seed();
    answered(room, |out| {
        // SAFETY: as above. The slices of `required` are borrowed for as long as `arguments`.
        unsafe {
            nuigatre_trim(
                seed0,
                seed1,
                wasm.as_ptr(),
                wasm.len(),
                required.as_ptr(),
                required.len(),
                realloc.is_some(),
                name.as_ptr(),
                name.len(),
                page_size_log2,
                start(out),
                out.len(),
            )
        }
    })
}

/// Says why an adapter imports what it does. The answer is the tree of chains, which is JSON.
pub(crate) fn why(wasm: &[u8], required: &[Slice<'_>], room: usize) -> Result<Answered, Error> {
    let (seed0, seed1) = seed();
    answered(room, |out| {
        // SAFETY: as above. The slices of `required` are borrowed for the call.
        unsafe {
            nuigatre_why(
                seed0,
                seed1,
                wasm.as_ptr(),
                wasm.len(),
                required.as_ptr(),
                required.len(),
                start(out),
                out.len(),
            )
        }
    })
}

/// Lists what a module imports and exports. The answer is JSON.
pub(crate) fn scan(wasm: &[u8], room: usize) -> Result<Answered, Error> {
    answered(room, |out| {
        // SAFETY: as above.
        unsafe { nuigatre_scan(wasm.as_ptr(), wasm.len(), start(out), out.len()) }
    })
}

/// The paths to the imports of a module that these texts ask for, from these of its exports. The answer is JSON.
pub(crate) fn paths(
    wasm: &[u8],
    exports: &[Slice<'_>],
    imports: &[Slice<'_>],
    room: usize,
) -> Result<Answered, Error> {
    let (seed0, seed1) = seed();
    answered(room, |out| {
        // SAFETY: as above. The slices of `exports` and `imports` are borrowed for the call.
        unsafe {
            nuigatre_paths(
                seed0,
                seed1,
                wasm.as_ptr(),
                wasm.len(),
                exports.as_ptr(),
                exports.len(),
                imports.as_ptr(),
                imports.len(),
                start(out),
                out.len(),
            )
        }
    })
}

/// A call of the archive on a message and the bytes of modules, under a seed.
type OnMessage =
    unsafe extern "C" fn(u64, u64, *const u8, usize, *const u8, usize, *mut u8, usize) -> Answer;

/// Makes the world of a component. The answer has the bytes of its modules, and then its record as JSON.
pub(crate) fn world(message: &[u8], modules: &[u8], room: usize) -> Result<Answered, Error> {
    answer_to(nuigatre_world, message, modules, room)
}

/// How many bytes a first buffer has for the answer of `world` to a message, at most so many of them for the record of the
/// modules' imports and exports. What is not written to costs nothing, and a second call all that the first did.
pub(crate) fn room_for_world(message: &str, modules: &[u8]) -> usize {
    const MORE: usize = 1 << 22;
    modules.len() + 4 * message.len() + (8 * modules.len()).min(MORE) + 4096
}

/// Makes the plan of a component. The answer is its text, which is JSON.
pub(crate) fn plan(message: &[u8], modules: &[u8], room: usize) -> Result<Answered, Error> {
    answer_to(nuigatre_plan, message, modules, room)
}

/// Makes the world of a component and its plan. The answer is that for the world, whose record has the plan too.
pub(crate) fn planned_world(
    message: &[u8],
    modules: &[u8],
    room: usize,
) -> Result<Answered, Error> {
    answer_to(nuigatre_planned_world, message, modules, room)
}

/// Says what a component imports of each interface. The answer is JSON.
pub(crate) fn component_imports(
    message: &[u8],
    modules: &[u8],
    room: usize,
) -> Result<Answered, Error> {
    answer_to(nuigatre_component_imports, message, modules, room)
}

/// The paths to what a key asks about of a component. The answer is JSON.
pub(crate) fn component_paths(
    message: &[u8],
    modules: &[u8],
    key: &str,
    room: usize,
) -> Result<Answered, Error> {
    let (seed0, seed1) = seed();
    answered(room, |out| {
        // SAFETY: as above.
        unsafe {
            nuigatre_component_paths(
                seed0,
                seed1,
                message.as_ptr(),
                message.len(),
                modules.as_ptr(),
                modules.len(),
                key.as_ptr(),
                key.len(),
                start(out),
                out.len(),
            )
        }
    })
}

/// The answer of one of these calls to a message.
fn answer_to(
    call: OnMessage,
    message: &[u8],
    modules: &[u8],
    room: usize,
) -> Result<Answered, Error> {
    let (seed0, seed1) = seed();
    answered(room, |out| {
        // SAFETY: as above, of each of these calls.
        unsafe {
            call(
                seed0,
                seed1,
                message.as_ptr(),
                message.len(),
                modules.as_ptr(),
                modules.len(),
                start(out),
                out.len(),
            )
        }
    })
}

/// An adapter or a library of a message, and the functions that are required of it, each as its name and its type in the
/// binary format of WebAssembly, after how many they are.
#[derive(Clone, Copy)]
pub(crate) struct Required<'a> {
    pub(crate) adapter: &'a str,
    pub(crate) functions: &'a [u8],
}

/// Validates the main module of a message, or this adapter or library. The answer is its record, which is JSON.
pub(crate) fn validated_module(
    message: &[u8],
    modules: &[u8],
    adapter: Option<Required<'_>>,
    room: usize,
) -> Result<Answered, Error> {
    let (name, functions) = match adapter {
        Some(required) => (required.adapter, required.functions),
        None => ("", &b""[..]),
    };
    let (seed0, seed1) = seed();
    answered(room, |out| {
        // SAFETY: as above.
        unsafe {
            nuigatre_validated_module(
                seed0,
                seed1,
                message.as_ptr(),
                message.len(),
                modules.as_ptr(),
                modules.len(),
                adapter.is_some(),
                name.as_ptr(),
                name.len(),
                functions.as_ptr(),
                functions.len(),
                start(out),
                out.len(),
            )
        }
    })
}

/// The seed of the archive's maps, drawn once a process. Whoever makes a module or a world chooses its names, and without
/// the seed can choose none that make a call slow. No answer depends on it.
fn seed() -> (u64, u64) {
    static SEED: OnceLock<(u64, u64)> = OnceLock::new();
    *SEED.get_or_init(|| {
        let drawn = RandomState::new();
        (drawn.hash_one(0), drawn.hash_one(1))
    })
}

/// Where a buffer begins.
fn start(out: &mut [MaybeUninit<u8>]) -> *mut u8 {
    out.as_mut_ptr().cast()
}

/// Calls with a buffer of `room` bytes; once more, with one as long as the answer, where that is too small.
fn answered(
    room: usize,
    mut call: impl FnMut(&mut [MaybeUninit<u8>]) -> Answer,
) -> Result<Answered, Error> {
    if nuigatre_abi() != ABI {
        return Err(Error::OtherVersion);
    }
    let mut room = room;
    // the second time it is as long as the answer
    for _ in 0..2 {
        let mut bytes = Vec::<u8>::new();
        bytes.try_reserve_exact(room).map_err(OutOfMemory::from)?;
        let answer = call(&mut bytes.spare_capacity_mut()[..room]);
        let is_long = answer.length > room;
        match answer.status {
            // of a fault its text, and what it is about, have no room
            TOO_SMALL | FAULT if is_long => room = answer.length,
            DONE | FAULT if !is_long => {
                // SAFETY: as is proved of the archive, the front of the buffer has `length` bytes, which are the answer,
                // or what is said of the fault.
                unsafe { bytes.set_len(answer.length) };
                return answer.with(bytes);
            }
            SAME => return Ok(Answered::Same),
            BAD_ARGUMENT => return Ok(Answered::BadArgument),
            MEMORY => return Err(Error::Memory),
            _ => return Err(Error::OtherVersion),
        }
    }
    Err(Error::OtherVersion)
}

impl Answer {
    /// The answer with its bytes.
    fn with(self, bytes: Vec<u8>) -> Result<Answered, Error> {
        if self.status == DONE {
            return Ok(Answered::Bytes {
                bytes,
                module_length: self.module_length,
            });
        }
        Ok(Answered::Fault(Fault {
            number: self.fault,
            position: self.position,
            text: String::from_utf8(bytes).map_err(|_| Error::OtherVersion)?,
        }))
    }
}

/// Validates the main module of a message, and then the adapter of this name, if one is given. The answer has no bytes. This
/// crate asks for records; its tests compare them.
#[cfg(test)]
pub(crate) fn validate(
    message: &[u8],
    modules: &[u8],
    adapter: Option<&str>,
    room: usize,
) -> Result<Answered, Error> {
    let name = adapter.unwrap_or_default();
    let (seed0, seed1) = seed();
    answered(room, |out| {
        // SAFETY: as above.
        unsafe {
            nuigatre_validate(
                seed0,
                seed1,
                message.as_ptr(),
                message.len(),
                modules.as_ptr(),
                modules.len(),
                adapter.is_some(),
                name.as_ptr(),
                name.len(),
                start(out),
                out.len(),
            )
        }
    })
}

/// The texts of the faults of calls on bytes. This crate has them itself; its tests compare them.
#[cfg(test)]
pub(crate) mod fault_text {
    use super::{Answered, DONE, NO_SUCH_FAULT, answered, nuigatre_fault_text, start};

    pub(crate) const DEDUPE_CALL: u32 = 0;
    pub(crate) const TRIM_CALL: u32 = 1;
    pub(crate) const WHY_CALL: u32 = 2;
    pub(crate) const SCAN_CALL: u32 = 3;
    pub(crate) const PATHS_CALL: u32 = 4;

    /// The text of the fault that this call answers by this number; `None` where it has none.
    pub(crate) fn fault_text(call: u32, number: u32) -> Option<String> {
        let mut is_there = true;
        let answer = answered(8, |out| {
            // SAFETY: `out` is the call's alone, which reads nothing of it.
            let mut answer = unsafe { nuigatre_fault_text(call, number, start(out), out.len()) };
            if answer.status == NO_SUCH_FAULT {
                is_there = false;
                answer.status = DONE;
            }
            answer
        });
        match answer {
            Ok(Answered::Bytes { bytes, .. }) => {
                assert!(is_there || bytes.is_empty());
                is_there.then(|| String::from_utf8(bytes).expect("a text"))
            }
            _ => panic!("call {call}, fault {number}"),
        }
    }
}

#[cfg(test)]
mod tests {
    use super::{
        ABI, Answer, Answered, DONE, FAULT, Fault, MEMORY, NO_SUCH_FAULT, SAME, TOO_SMALL, answered,
    };
    use crate::error::Error;
    use crate::place::About;
    use crate::read::Unread;
    use std::cell::Cell;
    use std::mem::MaybeUninit;

    /// The answer of an archive that has these bytes, with the fewest and the most bytes of the buffers that it was
    /// given.
    fn ask(status: u32, bytes: &[u8], room: usize) -> (Result<Answered, Error>, usize, usize) {
        let (least, most) = (Cell::new(usize::MAX), Cell::new(0));
        let call = |out: &mut [MaybeUninit<u8>]| {
            least.set(least.get().min(out.len()));
            most.set(most.get().max(out.len()));
            let has_room = out.len() >= bytes.len();
            if has_room {
                out.iter_mut().zip(bytes).for_each(|(to, byte)| {
                    to.write(*byte);
                });
            }
            Answer {
                status: if status == DONE && !has_room {
                    TOO_SMALL
                } else {
                    status
                },
                fault: 9,
                length: bytes.len(),
                module_length: 1,
                position: 2,
            }
        };
        (answered(room, call), least.get(), most.get())
    }

    #[test]
    fn buffers() {
        for (room, least, most) in [(4, 4, 4), (3, 3, 3), (2, 2, 3), (0, 0, 3)] {
            match ask(DONE, b"abc", room) {
                (Ok(Answered::Bytes { bytes, .. }), l, m) => {
                    assert_eq!((&bytes[..], l, m), (&b"abc"[..], least, most));
                }
                _ => panic!("no bytes"),
            }
            match ask(FAULT, b"abc", room) {
                (Ok(Answered::Fault(fault)), l, m) => {
                    assert_eq!((fault.text.as_str(), l, m), ("abc", least, most));
                    assert_eq!((fault.number, fault.position), (9, 2));
                }
                _ => panic!("no fault"),
            }
        }
    }

    /// Each symbol has the number of the form.
    #[test]
    fn symbols() {
        let source = include_str!("ffi.rs");
        let (_, rest) = source
            .split_once("\nunsafe extern \"C\" {")
            .expect("the declarations");
        let (declared, _) = rest.split_once("\n}\n").expect("their end");
        let names: Vec<&str> = declared
            .match_indices("fn nuigatre_")
            .filter_map(|(at, head)| declared[at + head.len()..].split_once('('))
            .map(|it| it.0)
            .collect();
        assert!(names.len() > 9);
        for name in names {
            let symbol = format!("#[link_name = \"nuigatre{ABI}_{name}\"]");
            assert!(declared.contains(&symbol), "{symbol}");
        }
        assert!(source.contains(&format!(".weak nuigatre{ABI}_unproved")));
        assert!(include_str!("../Cargo.toml").contains(&format!("\nlinks = \"nuigatre{ABI}\"\n")));
    }

    /// Statuses that nothing is read of, and those that no archive of this version answers.
    #[test]
    fn statuses() {
        assert!(matches!(ask(SAME, b"", 1).0, Ok(Answered::Same)));
        assert!(matches!(ask(MEMORY, b"", 1).0, Err(Error::Memory)));
        for (status, bytes) in [(NO_SUCH_FAULT, ""), (TOO_SMALL, "a"), (u32::MAX, "")] {
            let answer = ask(status, bytes.as_bytes(), 1).0;
            assert!(matches!(answer, Err(Error::OtherVersion)));
        }
        // always a longer one, and no text
        assert!(matches!(
            ask(TOO_SMALL, b"ab", 1).0,
            Err(Error::OtherVersion)
        ));
        assert!(matches!(ask(FAULT, b"\xff", 1).0, Err(Error::OtherVersion)));
    }

    #[test]
    fn what_faults_are_about() {
        let about = |position: usize, text: &str| {
            let fault = Fault {
                number: 9,
                position,
                text: text.to_owned(),
            };
            fault.about()
        };
        assert_eq!(about(4, "text"), Ok(None));
        let key = r#"é{"kind":"key","key":"é"}"#;
        assert_eq!(about(2, key), Ok(Some(About::Key("é".to_owned()))));
        assert_eq!(about(1, "é"), Err(Unread::Unknown));
        assert_eq!(about(5, "text"), Err(Unread::Unknown));
        assert_eq!(about(1, "text"), Err(Unread::Unknown));
    }
}
