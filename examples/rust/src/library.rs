//! The static library's functions.

use crate::raw_limits::RawLimits;
use crate::{Answer, Limits, NoScript, NoText, OutOfMemory, Refusal, Rule, Unreduced, Verdict};
use core::ffi::{c_char, CStr};
use core::mem::{size_of, MaybeUninit};

extern "C" {
    fn lupinanon_version() -> *const c_char;
    fn lupinanon_default_limits(limits: *mut RawLimits, size: usize) -> i32;
    fn lupinanon_fuzz_limits(limits: *mut RawLimits, size: usize) -> i32;
    fn lupinanon_swarm_limits(
        limits: *mut RawLimits,
        input: *const u8,
        input_len: usize,
        taken: *mut usize,
    ) -> i32;
    fn lupinanon_generate_into(
        limits: *const RawLimits,
        input: *const u8,
        input_len: usize,
        output: *mut u8,
        output_len: usize,
        bytes_len: *mut usize,
        left: *mut usize,
    ) -> i32;
    fn lupinanon_generate_in(
        limits: *const RawLimits,
        input: *const u8,
        input_len: usize,
        output: *mut u8,
        output_len: usize,
        bytes_len: *mut usize,
        left: *mut usize,
        scratch: *mut u8,
        scratch_len: usize,
    ) -> i32;
    fn lupinanon_features(
        limits: *const RawLimits,
        input: *const u8,
        input_len: usize,
        counters: *mut u8,
        counters_len: usize,
    ) -> i32;
    fn lupinanon_check(bytes: *const u8, bytes_len: usize, offset: *mut usize) -> i32;
    fn lupinanon_check_in(
        bytes: *const u8,
        bytes_len: usize,
        offset: *mut usize,
        scratch: *mut u8,
        scratch_len: usize,
    ) -> i32;
    fn lupinanon_validate(
        bytes: *const u8,
        bytes_len: usize,
        rule: *mut usize,
        offset: *mut usize,
    ) -> i32;
    fn lupinanon_validate_in(
        bytes: *const u8,
        bytes_len: usize,
        rule: *mut usize,
        offset: *mut usize,
        scratch: *mut u8,
        scratch_len: usize,
    ) -> i32;
    fn lupinanon_rule_text(rule: usize) -> *const c_char;
    fn lupinanon_print(
        bytes: *const u8,
        bytes_len: usize,
        output: *mut u8,
        output_len: usize,
        text_len: *mut usize,
    ) -> i32;
    fn lupinanon_script_into(
        limits: *const RawLimits,
        bytes: *const u8,
        bytes_len: usize,
        output: *mut u8,
        output_len: usize,
        script_len: *mut usize,
        offset: *mut usize,
    ) -> i32;
    fn lupinanon_script_in(
        limits: *const RawLimits,
        bytes: *const u8,
        bytes_len: usize,
        output: *mut u8,
        output_len: usize,
        script_len: *mut usize,
        offset: *mut usize,
        scratch: *mut u8,
        scratch_len: usize,
    ) -> i32;
    fn lupinanon_smaller(
        limits: *const RawLimits,
        bytes: *const u8,
        bytes_len: usize,
        k: usize,
        output: *mut u8,
        output_len: usize,
        smaller_len: *mut usize,
    ) -> i32;
    fn lupinanon_next_smaller(
        limits: *const RawLimits,
        bytes: *const u8,
        bytes_len: usize,
        step: *mut usize,
        output: *mut u8,
        output_len: usize,
        smaller_len: *mut usize,
    ) -> i32;
    fn lupinanon_without(
        bytes: *const u8,
        bytes_len: usize,
        k: usize,
        output: *mut u8,
        output_len: usize,
        less_len: *mut usize,
    ) -> i32;
    fn lupinanon_join(
        first: *const u8,
        first_len: usize,
        second: *const u8,
        second_len: usize,
        output: *mut u8,
        output_len: usize,
        joined_len: *mut usize,
    ) -> i32;
    fn lupinanon_change_count(bytes: *const u8, bytes_len: usize, count: *mut usize) -> i32;
    fn lupinanon_changed(
        bytes: *const u8,
        bytes_len: usize,
        number: usize,
        output: *mut u8,
        output_len: usize,
        changed_len: *mut usize,
        answer: *mut i32,
        rule: *mut usize,
        offset: *mut usize,
    ) -> i32;
    fn lupinanon_next_changed(
        bytes: *const u8,
        bytes_len: usize,
        number: *mut usize,
        output: *mut u8,
        output_len: usize,
        changed_len: *mut usize,
    ) -> i32;
    fn lupinanon_next_miswritten(
        bytes: *const u8,
        bytes_len: usize,
        number: *mut usize,
        output: *mut u8,
        output_len: usize,
        miswritten_len: *mut usize,
    ) -> i32;
}

/// The version of the static library.
pub fn version() -> &'static str {
    // SAFETY: the call returns a string of the library's own, which is never given back.
    let version = unsafe { CStr::from_ptr(lupinanon_version()) };
    version.to_str().expect("a version is ASCII")
}

// The limits that a function of the library writes into a struct of that size.
fn written(write: unsafe extern "C" fn(*mut RawLimits, usize) -> i32) -> Limits {
    let mut limits = MaybeUninit::uninit();
    // SAFETY: a call that returns 0 has written each byte of the struct, and 0 or 1 to each truth value.
    let limits = unsafe {
        let status = write(limits.as_mut_ptr(), size_of::<RawLimits>());
        assert_eq!(status, 0, "the size is that of the header's struct");
        limits.assume_init()
    };
    limits.limits()
}

/// The default limits.
pub fn default_limits() -> Limits {
    written(lupinanon_default_limits)
}

/// The limits of the profile `fuzz`.
pub fn fuzz_limits() -> Limits {
    written(lupinanon_fuzz_limits)
}

/// These limits as overridden by the ones that the first bytes of the input encode, and how many bytes encode them.
pub fn swarm_limits(limits: &Limits, input: &[u8]) -> (Limits, usize) {
    let mut limits = RawLimits::of(limits);
    let mut taken = 0;
    // SAFETY: no reference is null, the length is the slice's, and nothing written overlaps anything. What is
    // written to a truth value is 0 or 1.
    let status =
        unsafe { lupinanon_swarm_limits(&mut limits, input.as_ptr(), input.len(), &mut taken) };
    match status {
        0 => (limits.limits(), taken),
        other => unexpected(other),
    }
}

/// The result for an output of some size.
pub enum Outcome {
    /// That many bytes are at its front, and that many of the input are left.
    Written { len: usize, left: usize },
    /// It needs that many bytes.
    NoRoom { len: usize },
}

/// Writes the component's bytes to the front of the output, if there is room.
pub fn generate_into(limits: &Limits, input: &[u8], output: &mut [u8]) -> Result<Outcome, Refusal> {
    let limits = RawLimits::of(limits);
    let (mut len, mut left) = (0, 0);
    // SAFETY: no reference is null, the lengths are the slices', and nothing written overlaps anything.
    let status = unsafe {
        lupinanon_generate_into(
            &limits,
            input.as_ptr(),
            input.len(),
            output.as_mut_ptr(),
            output.len(),
            &mut len,
            &mut left,
        )
    };
    outcome_of(status, len, left)
}

/// The same with memory that is lent.
pub fn generate_in(
    limits: &Limits,
    input: &[u8],
    output: &mut [u8],
    scratch: &mut [u8],
) -> Result<Outcome, Refusal> {
    let limits = RawLimits::of(limits);
    let (mut len, mut left) = (0, 0);
    // SAFETY: no reference is null, the lengths are the slices', and nothing written overlaps anything.
    let status = unsafe {
        lupinanon_generate_in(
            &limits,
            input.as_ptr(),
            input.len(),
            output.as_mut_ptr(),
            output.len(),
            &mut len,
            &mut left,
            scratch.as_mut_ptr(),
            scratch.len(),
        )
    };
    outcome_of(status, len, left)
}

// What a status says, with these counts.
fn outcome_of(status: i32, len: usize, left: usize) -> Result<Outcome, Refusal> {
    match status {
        0 => Ok(Outcome::Written { len, left }),
        7 => Ok(Outcome::NoRoom { len }),
        other => Err(refusal_of(other)),
    }
}

/// Adds 1 to a counter for each combination in the component of the input.
pub fn features(limits: &Limits, input: &[u8], counters: &mut [u8]) -> Result<(), Refusal> {
    let limits = RawLimits::of(limits);
    // SAFETY: no reference is null, the lengths are the slices', and the counters overlap nothing.
    let status = unsafe {
        lupinanon_features(
            &limits,
            input.as_ptr(),
            input.len(),
            counters.as_mut_ptr(),
            counters.len(),
        )
    };
    match status {
        0 => Ok(()),
        other => Err(refusal_of(other)),
    }
}

// The refusal of that status.
fn refusal_of(status: i32) -> Refusal {
    match status {
        1 => Refusal::InconsistentLimits,
        2 => Refusal::MinimumNotMet,
        3 => Refusal::ModuleRefused,
        4 => Refusal::TooLong,
        5 => Refusal::OutOfMemory,
        6 => Refusal::PartsDisagree,
        other => unexpected(other),
    }
}

// A status that no call returns, unless a limit is set that the library does not have.
fn unexpected(status: i32) -> ! {
    match status {
        9 => panic!("a limit is set that the library, of version {}, does not have", version()),
        other => unreachable!("the arguments are good, and a truth value is 0 or 1; {other} is no status"),
    }
}

// An offset, if it is one.
fn known(offset: usize) -> Option<usize> {
    (offset != usize::MAX).then_some(offset)
}

/// What the bytes are.
pub fn check(bytes: &[u8]) -> Result<Verdict, OutOfMemory> {
    let mut offset = 0;
    // SAFETY: the length is the slice's, and the offset overlaps nothing of it.
    let status = unsafe { lupinanon_check(bytes.as_ptr(), bytes.len(), &mut offset) };
    verdict_of(status, offset)
}

/// The same with memory that is lent.
pub fn check_in(bytes: &[u8], scratch: &mut [u8]) -> Result<Verdict, OutOfMemory> {
    let mut offset = 0;
    let (lent, lent_len) = (scratch.as_mut_ptr(), scratch.len());
    // SAFETY: the lengths are the slices', and nothing written overlaps anything.
    let status =
        unsafe { lupinanon_check_in(bytes.as_ptr(), bytes.len(), &mut offset, lent, lent_len) };
    verdict_of(status, offset)
}

// What a status of a check says, with that offset.
fn verdict_of(status: i32, offset: usize) -> Result<Verdict, OutOfMemory> {
    match status {
        0 => Ok(Verdict::WellFormed),
        5 => Err(OutOfMemory),
        10 => Ok(Verdict::IllFormed { offset: known(offset) }),
        11 => Ok(Verdict::Unread { offset }),
        other => unreachable!("the arguments are good, and {other} is no status of a check"),
    }
}

/// What the bytes are to validators.
pub fn validate(bytes: &[u8]) -> Result<Answer, OutOfMemory> {
    let (mut number, mut offset) = (0, 0);
    // SAFETY: the length is the slice's, and what is written overlaps nothing.
    let status =
        unsafe { lupinanon_validate(bytes.as_ptr(), bytes.len(), &mut number, &mut offset) };
    answer_of(status, number, offset)
}

/// The same with memory that is lent.
pub fn validate_in(bytes: &[u8], scratch: &mut [u8]) -> Result<Answer, OutOfMemory> {
    let (mut number, mut offset) = (0, 0);
    // SAFETY: the lengths are the slices', and nothing written overlaps anything.
    let status = unsafe {
        lupinanon_validate_in(
            bytes.as_ptr(),
            bytes.len(),
            &mut number,
            &mut offset,
            scratch.as_mut_ptr(),
            scratch.len(),
        )
    };
    answer_of(status, number, offset)
}

// What a status of a validation says, with the rule of that number.
fn answer_of(status: i32, number: usize, offset: usize) -> Result<Answer, OutOfMemory> {
    let rule = Rule { number };
    match status {
        0 => Ok(Answer::Valid),
        5 => Err(OutOfMemory),
        14 => Ok(Answer::Invalid { rule, offset }),
        15 => Ok(Answer::Bound { rule, offset }),
        16 => Ok(Answer::Outside { rule, offset }),
        other => unreachable!("the arguments are good, and {other} is no status of a validation"),
    }
}

/// A rule in words.
pub fn rule_text(rule: usize) -> &'static str {
    // SAFETY: the call returns a string of the library's own, which is never given back.
    let text = unsafe { CStr::from_ptr(lupinanon_rule_text(rule)) };
    text.to_str().expect("a rule is ASCII")
}

/// How long the text of the bytes is. It is written to the front of the output, if there is room.
pub fn print_into(bytes: &[u8], output: &mut [u8]) -> Result<usize, NoText> {
    let mut len = 0;
    // SAFETY: no reference is null, the lengths are the slices', and nothing written overlaps anything.
    let status = unsafe {
        lupinanon_print(bytes.as_ptr(), bytes.len(), output.as_mut_ptr(), output.len(), &mut len)
    };
    match status {
        0 | 7 => Ok(len),
        5 => Err(NoText::OutOfMemory),
        11 => Err(NoText::Unread),
        18 => Err(NoText::OtherCoreModule),
        other => unreachable!("the arguments are good, and {other} is no status of a print"),
    }
}

/// How long the script of the bytes is. It is written to the front of the output, if there is room.
pub fn script_into(limits: &Limits, bytes: &[u8], output: &mut [u8]) -> Result<usize, NoScript> {
    let limits = RawLimits::of(limits);
    let (mut len, mut offset) = (0, 0);
    // SAFETY: no reference is null, the lengths are the slices', and nothing written overlaps anything.
    let status = unsafe {
        lupinanon_script_into(
            &limits,
            bytes.as_ptr(),
            bytes.len(),
            output.as_mut_ptr(),
            output.len(),
            &mut len,
            &mut offset,
        )
    };
    script_of(status, len, offset)
}

/// The same with memory that is lent.
pub fn script_in(
    limits: &Limits,
    bytes: &[u8],
    output: &mut [u8],
    scratch: &mut [u8],
) -> Result<usize, NoScript> {
    let limits = RawLimits::of(limits);
    let (mut len, mut offset) = (0, 0);
    // SAFETY: no reference is null, the lengths are the slices', and nothing written overlaps anything.
    let status = unsafe {
        lupinanon_script_in(
            &limits,
            bytes.as_ptr(),
            bytes.len(),
            output.as_mut_ptr(),
            output.len(),
            &mut len,
            &mut offset,
            scratch.as_mut_ptr(),
            scratch.len(),
        )
    };
    script_of(status, len, offset)
}

// How long a script is, or why there is none, by a status, with that offset.
fn script_of(status: i32, len: usize, offset: usize) -> Result<usize, NoScript> {
    match status {
        0 | 7 => Ok(len),
        1 => Err(NoScript::InconsistentLimits),
        5 => Err(NoScript::OutOfMemory),
        10 => Err(NoScript::IllFormed),
        11 => Err(NoScript::Unread { offset }),
        12 => Err(NoScript::CannotBeGenerated { offset: known(offset) }),
        other => unexpected(other),
    }
}

// How long the component is that a call writes, if there is one.
fn len_of(status: i32, len: usize) -> Result<Option<usize>, Unreduced> {
    match status {
        0 | 7 => Ok(Some(len)),
        1 => Err(Unreduced::InconsistentLimits),
        4 => Err(Unreduced::TooLong),
        5 => Err(Unreduced::OutOfMemory),
        11 => Err(Unreduced::Unread),
        13 | 17 => Ok(None),
        other => unexpected(other),
    }
}

/// How long the k-th smaller component is, if there is one. It is written to the front of the output, if there is
/// room.
pub fn smaller_into(
    limits: Option<&Limits>,
    bytes: &[u8],
    k: usize,
    output: &mut [u8],
) -> Result<Option<usize>, Unreduced> {
    let limits = limits.map(RawLimits::of);
    let limits = limits.as_ref().map_or(core::ptr::null(), |limits| limits as *const RawLimits);
    let mut len = 0;
    // SAFETY: only the limits may be null, the lengths are the slices', and nothing written overlaps anything.
    let status = unsafe {
        lupinanon_smaller(
            limits,
            bytes.as_ptr(),
            bytes.len(),
            k,
            output.as_mut_ptr(),
            output.len(),
            &mut len,
        )
    };
    len_of(status, len)
}

/// How long the smaller component is to which the first step leads, from that number on, if there is one. It is written
/// as `smaller_into` does, and the number becomes the step's.
pub fn next_smaller_into(
    limits: Option<&Limits>,
    bytes: &[u8],
    step: &mut usize,
    output: &mut [u8],
) -> Result<Option<usize>, Unreduced> {
    let limits = limits.map(RawLimits::of);
    let limits = limits.as_ref().map_or(core::ptr::null(), |limits| limits as *const RawLimits);
    let mut len = 0;
    // SAFETY: only the limits may be null, the lengths are the slices', and nothing written overlaps anything.
    let status = unsafe {
        lupinanon_next_smaller(
            limits,
            bytes.as_ptr(),
            bytes.len(),
            step,
            output.as_mut_ptr(),
            output.len(),
            &mut len,
        )
    };
    len_of(status, len)
}

/// How long the component without its k-th item is, if there is one. It is written as `smaller_into` does.
pub fn without_into(bytes: &[u8], k: usize, output: &mut [u8]) -> Result<Option<usize>, Unreduced> {
    let mut len = 0;
    // SAFETY: no reference is null, the lengths are the slices', and nothing written overlaps anything.
    let status = unsafe {
        lupinanon_without(bytes.as_ptr(), bytes.len(), k, output.as_mut_ptr(), output.len(), &mut len)
    };
    len_of(status, len)
}

/// How long the joined component is. It is written as `smaller_into` does.
pub fn join_into(first: &[u8], second: &[u8], output: &mut [u8]) -> Result<Option<usize>, Unreduced> {
    let mut len = 0;
    // SAFETY: no reference is null, the lengths are the slices', and nothing written overlaps anything.
    let status = unsafe {
        lupinanon_join(
            first.as_ptr(),
            first.len(),
            second.as_ptr(),
            second.len(),
            output.as_mut_ptr(),
            output.len(),
            &mut len,
        )
    };
    len_of(status, len)
}

/// How many changes the component has.
pub fn change_count(bytes: &[u8]) -> Result<usize, Unreduced> {
    let mut count = 0;
    // SAFETY: the length is the slice's, and the count overlaps nothing of it.
    let status = unsafe { lupinanon_change_count(bytes.as_ptr(), bytes.len(), &mut count) };
    let count = len_of(status, count)?;
    Ok(count.expect("a component has a number of changes"))
}

/// How long the component is to which the change of that number leads, if there is one, and what it is to validators if
/// it is written. It is written as `smaller_into` does.
pub fn changed_into(
    bytes: &[u8],
    number: usize,
    output: &mut [u8],
) -> Result<Option<(usize, Answer)>, Unreduced> {
    let (mut len, mut answer, mut rule, mut offset) = (0, 0, 0, 0);
    // SAFETY: no reference is null, the lengths are the slices', and nothing written overlaps anything.
    let status = unsafe {
        lupinanon_changed(
            bytes.as_ptr(),
            bytes.len(),
            number,
            output.as_mut_ptr(),
            output.len(),
            &mut len,
            &mut answer,
            &mut rule,
            &mut offset,
        )
    };
    let answer = answer_of(answer, rule, offset).map_err(|_| Unreduced::OutOfMemory)?;
    Ok(len_of(status, len)?.map(|len| (len, answer)))
}

/// How long the component is to which the first change leads, from that number on, if there is one. It is written as
/// `smaller_into` does, and the number becomes the change's.
pub fn next_changed_into(
    bytes: &[u8],
    number: &mut usize,
    output: &mut [u8],
) -> Result<Option<usize>, Unreduced> {
    let mut len = 0;
    // SAFETY: no reference is null, the lengths are the slices', and nothing written overlaps anything.
    let status = unsafe {
        lupinanon_next_changed(
            bytes.as_ptr(),
            bytes.len(),
            number,
            output.as_mut_ptr(),
            output.len(),
            &mut len,
        )
    };
    len_of(status, len)
}

/// How long the first candidate is, from that number on, that is no component to any reader, if there is one. It is
/// written as `smaller_into` does, and the number becomes the candidate's.
pub fn next_miswritten_into(
    bytes: &[u8],
    number: &mut usize,
    output: &mut [u8],
) -> Result<Option<usize>, Unreduced> {
    let mut len = 0;
    // SAFETY: no reference is null, the lengths are the slices', and nothing written overlaps anything.
    let status = unsafe {
        lupinanon_next_miswritten(
            bytes.as_ptr(),
            bytes.len(),
            number,
            output.as_mut_ptr(),
            output.len(),
            &mut len,
        )
    };
    len_of(status, len)
}
