//! WebAssembly components from a fuzzer's bytes.
//!
//! The proved static library, wrapped in safe functions. Only its calls are unsafe. It needs no `std`, but the
//! `malloc`, `realloc` and `free` of a C library. The feature `arbitrary` adds `Component`, which implements the trait
//! `Arbitrary` of the crate of that name.
//!
//! ```
//! use lupinanon::{check, generate, script, Limits, Verdict};
//!
//! let limits = Limits { max_components: 4, ..Limits::default() };
//! let made = generate(&limits, b"\x03\x01\x00\x00\x06\x00\x00\xff")?;
//! assert_eq!(made.bytes, b"\x00asm\x0d\x00\x01\x00\x07\x02\x01\x79");
//! assert_eq!(made.left, 1);
//! assert_eq!(check(&made.bytes), Ok(Verdict::WellFormed));
//! assert_eq!(script(&limits, &made.bytes)?, b"\x03\x01\x00\x00\x06\x00\x00");
//! # Ok::<(), Box<dyn std::error::Error>>(())
//! ```
#![no_std]

extern crate alloc;

mod answer;
#[cfg(feature = "arbitrary")]
mod component;
mod library;
mod limits;
mod raw_limits;

use alloc::string::String;
use alloc::vec::Vec;
use core::fmt;
use core::ops::Range;

pub use answer::{Answer, Rule};
#[cfg(feature = "arbitrary")]
pub use component::Component;
pub use limits::Limits;

impl Default for Limits {
    fn default() -> Limits {
        library::default_limits()
    }
}

impl Limits {
    /// The limits of the profile `fuzz`, with which a fuzzer's input says more in fewer bytes: `max_exports` is 10,
    /// `finish_after` and `max_name_length` are 8, and `loop_bits` is 2. The others are the defaults.
    pub fn fuzz() -> Limits {
        library::fuzz_limits()
    }
}

/// Limits that the first bytes of an input encode.
#[derive(Clone, Copy, Debug, PartialEq, Eq)]
#[non_exhaustive]
pub struct SwarmLimits<'a> {
    /// The limits. They may be such that they do not fit together.
    pub limits: Limits,
    /// What follows those bytes: the input of a component.
    pub rest: &'a [u8],
}

/// A component's bytes.
#[derive(Clone, Debug, PartialEq, Eq)]
#[non_exhaustive]
pub struct Generated {
    /// The component in the binary format.
    pub bytes: Vec<u8>,
    /// How many bytes at the end of the input were not used.
    pub left: usize,
}

/// Why no component is made of an input.
#[derive(Clone, Copy, Debug, PartialEq, Eq)]
#[non_exhaustive]
pub enum Refusal {
    /// A minimum exceeds its maximum, or a limit the most that it may be.
    InconsistentLimits,
    /// No more imports or functions of a minimum can be added.
    MinimumNotMet,
    /// A core module is chosen, and `min_memories` exceeds `max_memories`.
    ModuleRefused,
    /// A length or a count in the bytes would exceed 4,294,967,295.
    TooLong,
    /// Out of memory.
    OutOfMemory,
    /// No call returns it.
    PartsDisagree,
}

impl fmt::Display for Refusal {
    fn fmt(&self, f: &mut fmt::Formatter<'_>) -> fmt::Result {
        f.write_str(match self {
            Refusal::InconsistentLimits => "the limits do not fit together",
            Refusal::MinimumNotMet => "a minimum of the limits was not met",
            Refusal::ModuleRefused => "the limits on memories leave no core module",
            Refusal::TooLong => "a length or a count is too large to be written",
            Refusal::OutOfMemory => "out of memory",
            Refusal::PartsDisagree => "the parts of a core module do not agree",
        })
    }
}

impl core::error::Error for Refusal {}

/// What bytes are.
#[derive(Clone, Copy, Debug, PartialEq, Eq)]
#[non_exhaustive]
pub enum Verdict {
    /// A component that is well formed.
    WellFormed,
    /// A component that breaks a rule, in the entry of a section that begins at this offset.
    IllFormed { offset: Option<usize> },
    /// Not a component of the grammar, or one whose scopes are nested more than 1001 deep, as was found at this offset.
    Unread { offset: usize },
}

/// Out of memory in a check or a validation, which then says nothing about the bytes.
#[derive(Clone, Copy, Debug, PartialEq, Eq)]
pub struct OutOfMemory;

impl fmt::Display for OutOfMemory {
    fn fmt(&self, f: &mut fmt::Formatter<'_>) -> fmt::Result {
        f.write_str("out of memory")
    }
}

impl core::error::Error for OutOfMemory {}

/// Why bytes have no text.
#[derive(Clone, Copy, Debug, PartialEq, Eq)]
#[non_exhaustive]
pub enum NoText {
    /// They are not a component of the grammar, or are one whose scopes are nested more than 1001 deep. `check` knows
    /// where.
    Unread,
    /// They are a component with a core module that has more than function types and memories.
    OtherCoreModule,
    /// Out of memory.
    OutOfMemory,
}

impl fmt::Display for NoText {
    fn fmt(&self, f: &mut fmt::Formatter<'_>) -> fmt::Result {
        f.write_str(match self {
            NoText::Unread => "the bytes are no component",
            NoText::OtherCoreModule => "a core module in it has more than function types and memories",
            NoText::OutOfMemory => "out of memory",
        })
    }
}

impl core::error::Error for NoText {}

impl From<OutOfMemory> for NoText {
    fn from(_: OutOfMemory) -> NoText {
        NoText::OutOfMemory
    }
}

/// Why bytes have no script.
#[derive(Clone, Copy, Debug, PartialEq, Eq)]
#[non_exhaustive]
pub enum NoScript {
    /// A minimum exceeds its maximum, or a limit the most that it may be.
    InconsistentLimits,
    /// They are not a component of the grammar, or are one whose scopes are nested more than 1001 deep, as was found at
    /// this offset.
    Unread { offset: usize },
    /// They are a component that breaks a rule. `check` knows in which entry.
    IllFormed,
    /// No input produces them within the limits. What their script produces first differs at this offset, if there
    /// is one.
    CannotBeGenerated { offset: Option<usize> },
    /// Out of memory.
    OutOfMemory,
}

impl fmt::Display for NoScript {
    fn fmt(&self, f: &mut fmt::Formatter<'_>) -> fmt::Result {
        match self {
            NoScript::InconsistentLimits => f.write_str("the limits do not fit together"),
            NoScript::Unread { offset } => write!(f, "no component, as is seen at offset {offset}"),
            NoScript::IllFormed => f.write_str("the component is not well formed"),
            NoScript::CannotBeGenerated { offset: None } => f.write_str("it cannot be generated"),
            NoScript::CannotBeGenerated { offset: Some(offset) } => {
                write!(f, "it cannot be generated; what its script produces differs at offset {offset}")
            }
            NoScript::OutOfMemory => f.write_str("out of memory"),
        }
    }
}

impl core::error::Error for NoScript {}

impl From<OutOfMemory> for NoScript {
    fn from(_: OutOfMemory) -> NoScript {
        NoScript::OutOfMemory
    }
}

/// Why no component is returned that is smaller than another, or changed, or that two are joined to.
#[derive(Clone, Copy, Debug, PartialEq, Eq)]
#[non_exhaustive]
pub enum Unreduced {
    /// A minimum exceeds its maximum, or a limit the most that it may be.
    InconsistentLimits,
    /// The bytes are not a component of the grammar, or are one whose scopes are nested more than 1001 deep. `check`
    /// knows where.
    Unread,
    /// A length or a count in the joined component would exceed 4,294,967,295.
    TooLong,
    /// Out of memory.
    OutOfMemory,
}

impl fmt::Display for Unreduced {
    fn fmt(&self, f: &mut fmt::Formatter<'_>) -> fmt::Result {
        f.write_str(match self {
            Unreduced::InconsistentLimits => "the limits do not fit together",
            Unreduced::Unread => "the bytes are no component",
            Unreduced::TooLong => "a length or a count is too large to be written",
            Unreduced::OutOfMemory => "out of memory",
        })
    }
}

impl core::error::Error for Unreduced {}

impl From<OutOfMemory> for Unreduced {
    fn from(_: OutOfMemory) -> Unreduced {
        Unreduced::OutOfMemory
    }
}

/// Returns the limits as overridden by the ones that the first bytes of the input encode, so that one run tries many
/// limits (swarm testing). Twenty limits take one byte each, in the order and the ranges of `lupinanon.h`, and a byte
/// after the end counts as 0. The minima and `must_validate` stay as they are.
///
/// # Panics
///
/// As `generate` does.
pub fn swarm_limits<'a>(limits: &Limits, input: &'a [u8]) -> SwarmLimits<'a> {
    let (limits, taken) = library::swarm_limits(limits, input);
    SwarmLimits { limits, rest: &input[taken..] }
}

/// Returns the component that the input produces within the limits. Equal limits and equal input produce equal bytes.
///
/// # Panics
///
/// If the static library is older than this crate and does not have a limit that is set.
pub fn generate(limits: &Limits, input: &[u8]) -> Result<Generated, Refusal> {
    generated(|output| library::generate_into(limits, input, output))
}

/// The same with memory that is lent: all but the bytes that are returned is taken from there. `LUPINANON_SCRATCH` in
/// `lupinanon.h` says how much is enough.
///
/// # Panics
///
/// As `generate` does.
pub fn generate_in(limits: &Limits, input: &[u8], scratch: &mut [u8]) -> Result<Generated, Refusal> {
    generated(|output| library::generate_in(limits, input, output, scratch))
}

// Returns what a call writes into an output that has room for it.
fn generated(
    mut write: impl FnMut(&mut [u8]) -> Result<library::Outcome, Refusal>,
) -> Result<Generated, Refusal> {
    let mut output = Vec::new();
    let mut room = 4096;
    loop {
        output.try_reserve_exact(room).map_err(|_| Refusal::OutOfMemory)?;
        output.resize(room, 0);
        match write(&mut output)? {
            library::Outcome::Written { len, left } => {
                output.truncate(len);
                return Ok(Generated { bytes: output, left });
            }
            library::Outcome::NoRoom { len } => {
                output.clear();
                room = len;
            }
        }
    }
}

/// Adds 1 to a counter for each combination in the component that the input produces within the limits, for a fuzzer
/// that takes counters as coverage. Which counter that is depends on how many there are, and none exceeds 255. If there
/// is a refusal, they are as they were.
///
/// # Panics
///
/// As `generate` does.
pub fn features(limits: &Limits, input: &[u8], counters: &mut [u8]) -> Result<(), Refusal> {
    library::features(limits, input, counters)
}

/// Returns what the bytes are: a component that is well formed, one that is not, or not a component.
pub fn check(bytes: &[u8]) -> Result<Verdict, OutOfMemory> {
    library::check(bytes)
}

/// The same with memory that is lent.
pub fn check_in(bytes: &[u8], scratch: &mut [u8]) -> Result<Verdict, OutOfMemory> {
    library::check_in(bytes, scratch)
}

/// Returns what the bytes are to whoever tests a validator: a component that it has to accept, bytes that it may not
/// accept, or neither.
pub fn validate(bytes: &[u8]) -> Result<Answer, OutOfMemory> {
    library::validate(bytes)
}

/// The same with memory that is lent.
pub fn validate_in(bytes: &[u8], scratch: &mut [u8]) -> Result<Answer, OutOfMemory> {
    library::validate_in(bytes, scratch)
}

/// Returns the component that the bytes are, well formed or not, in the text format, with indexes as comments.
pub fn print(bytes: &[u8]) -> Result<String, NoText> {
    let room = bytes.len().saturating_mul(8);
    let text = written(room, |output| library::print_into(bytes, output).map(Some))?;
    Ok(String::from_utf8(text.expect("a component that is printed has a text")).expect("a text is ASCII"))
}

/// Returns the script of the component that the bytes are: an input from which `generate` produces these bytes within
/// the same limits, and of which nothing is left. Each component that can be generated has one.
///
/// # Panics
///
/// As `generate` does.
pub fn script(limits: &Limits, bytes: &[u8]) -> Result<Vec<u8>, NoScript> {
    script_written(|output| library::script_into(limits, bytes, output))
}

/// The same with memory that is lent, as for `generate_in`.
///
/// # Panics
///
/// As `generate` does.
pub fn script_in(limits: &Limits, bytes: &[u8], scratch: &mut [u8]) -> Result<Vec<u8>, NoScript> {
    script_written(|output| library::script_in(limits, bytes, output, scratch))
}

// Returns the script that a call writes.
fn script_written(
    mut write: impl FnMut(&mut [u8]) -> Result<usize, NoScript>,
) -> Result<Vec<u8>, NoScript> {
    let script = written(4096, |output| write(output).map(Some))?;
    Ok(script.expect("what has no script is an error"))
}

// Returns what a call writes to an output of that room, or of as much more as it asks for.
fn written<E: From<OutOfMemory>>(
    room: usize,
    mut call: impl FnMut(&mut [u8]) -> Result<Option<usize>, E>,
) -> Result<Option<Vec<u8>>, E> {
    let mut output = Vec::new();
    let mut room = room;
    loop {
        output.try_reserve_exact(room).map_err(|_| OutOfMemory)?;
        output.resize(room, 0);
        let Some(len) = call(&mut output)? else {
            return Ok(None);
        };
        if len <= room {
            output.truncate(len);
            return Ok(Some(output));
        }
        output.clear();
        room = len;
    }
}

/// Returns the `k`-th, from 0, of the components that are smaller by a step and can be generated within the limits; or,
/// without limits, that are well formed. There is none if there are no more than `k`.
///
/// The steps are, in this order: the component without each item, as `without` has it, and with each item made simpler.
///
/// # Panics
///
/// As `generate` does.
pub fn smaller(limits: Option<&Limits>, bytes: &[u8], k: usize) -> Result<Option<Vec<u8>>, Unreduced> {
    written(bytes.len(), |output| library::smaller_into(limits, bytes, k, output))
}

/// A step or a change, and the bytes to which it leads.
#[derive(Clone, Debug, PartialEq, Eq)]
#[non_exhaustive]
pub struct Step {
    /// Its number, from 0 over all steps, including the ones that lead to no wanted component.
    pub number: usize,
    /// What it leads to, in the binary format.
    pub bytes: Vec<u8>,
}

/// Returns the first step from that number on that leads to a component that can be generated within the limits; or,
/// without limits, to one that is well formed. There is none if no step from there on does.
///
/// The steps are as in `smaller`. A loop that goes on from the step that is returned tries each of them once.
///
/// # Panics
///
/// As `generate` does.
pub fn next_smaller(limits: Option<&Limits>, bytes: &[u8], from: usize) -> Result<Option<Step>, Unreduced> {
    let mut number = from;
    let found = written(bytes.len(), |output| library::next_smaller_into(limits, bytes, &mut number, output))?;
    Ok(found.map(|bytes| Step { number, bytes }))
}

/// Returns the component without its `k`-th item, from 0, and without all that refers to it. Other indexes are
/// renumbered. There is none if there are no more than `k` items.
pub fn without(bytes: &[u8], k: usize) -> Result<Option<Vec<u8>>, Unreduced> {
    written(bytes.len(), |output| library::without_into(bytes, k, output))
}

/// Returns a component of the sections of the first and then of the second, with its indexes renumbered, and its
/// imports and exports by names that are new.
pub fn join(first: &[u8], second: &[u8]) -> Result<Vec<u8>, Unreduced> {
    let room = first.len().saturating_add(second.len());
    let joined = written(room, |output| library::join_into(first, second, output))?;
    Ok(joined.expect("a component that is joined is one"))
}

/// Returns how many changes the component has: the numbers for `changed` are below this.
pub fn change_count(bytes: &[u8]) -> Result<usize, Unreduced> {
    library::change_count(bytes)
}

/// A component after a change.
#[derive(Clone, Debug, PartialEq, Eq)]
#[non_exhaustive]
pub struct Changed {
    /// The component in the binary format.
    pub bytes: Vec<u8>,
    /// What it is to validators.
    pub answer: Answer,
}

/// Returns the component after the change of that number, in which one token, or one list of entries, is another. There
/// is none if that change leads to nothing.
///
/// Nothing is renumbered, so that it is often not valid. Sixteen changes belong to each place, in the order of the bytes.
pub fn changed(bytes: &[u8], number: usize) -> Result<Option<Changed>, Unreduced> {
    let mut found = None;
    let written = written(bytes.len(), |output| -> Result<_, Unreduced> {
        let changed = library::changed_into(bytes, number, output)?;
        found = changed.map(|(_, answer)| answer);
        Ok(changed.map(|(len, _)| len))
    })?;
    Ok(written.zip(found).map(|(bytes, answer)| Changed { bytes, answer }))
}

/// Returns the first change from that number on that leads to another component. There is none if no change from there
/// on does.
pub fn next_changed(bytes: &[u8], from: usize) -> Result<Option<Step>, Unreduced> {
    let mut number = from;
    let found = written(bytes.len(), |output| library::next_changed_into(bytes, &mut number, output))?;
    Ok(found.map(|bytes| Step { number, bytes }))
}

/// Returns the first candidate from that number on that no reader of the standard takes for a component. There is none if
/// there is no such candidate from there on. The candidates, in order: the bytes cut off after each number of bytes; a
/// section with a wrong length, id or count; and a wrong byte of the preamble.
pub fn next_miswritten(bytes: &[u8], from: usize) -> Result<Option<Step>, Unreduced> {
    let mut number = from;
    let found = written(bytes.len(), |output| library::next_miswritten_into(bytes, &mut number, output))?;
    Ok(found.map(|bytes| Step { number, bytes }))
}

// Returns the first of these steps to a component that fails.
fn failing(
    component: &[u8],
    steps: Range<usize>,
    mut fails: impl FnMut(&[u8]) -> bool,
) -> Result<Option<Step>, Unreduced> {
    let mut from = steps.start;
    while from < steps.end {
        match next_smaller(None, component, from)? {
            Some(step) if step.number >= steps.end => break,
            Some(step) if fails(&step.bytes) => return Ok(Some(step)),
            Some(step) => from = step.number + 1,
            None => break,
        }
    }
    Ok(None)
}

/// Returns a component that fails and of which no single item can be removed or made simpler so that it still fails. It
/// is found from one that fails, which is returned if no smaller one does. Only components that are well formed are
/// tried.
pub fn reduce(component: &[u8], mut fails: impl FnMut(&[u8]) -> bool) -> Result<Vec<u8>, Unreduced> {
    let mut smallest = component.to_vec();
    let mut from = 0;
    loop {
        // The steps before that number come last, since a larger component's have been tried.
        let mut found = failing(&smallest, from..usize::MAX, &mut fails)?;
        if found.is_none() {
            found = failing(&smallest, 0..from, &mut fails)?;
        }
        let Some(step) = found else {
            return Ok(smallest);
        };
        smallest = step.bytes;
        from = step.number;
    }
}

/// Returns the version of the static library.
pub fn library_version() -> &'static str {
    library::version()
}
