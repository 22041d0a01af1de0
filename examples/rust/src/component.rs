//! A component as the crate `arbitrary` makes values.

use crate::{generate, print, Limits};
use alloc::vec::Vec;
use arbitrary::{Arbitrary, Error, Result, Unstructured};
use core::fmt;

/// A component that a fuzzer's input makes, as in `fuzz_target!(|component: lupinanon::Component| ..)`.
///
/// `Arbitrary` makes it within `Limits::fuzz()` and with `must_validate`, so that a validator has to accept it. `new`
/// takes other limits. As text it is what `print` returns.
#[derive(Clone, PartialEq, Eq)]
pub struct Component {
    bytes: Vec<u8>,
}

impl Component {
    /// Makes a component of the front of the input, within the limits, and leaves the rest. There is none if `generate`
    /// refuses it, which it does not for want of input: then the error is `IncorrectFormat`, and nothing is taken.
    ///
    /// # Panics
    ///
    /// As `generate` does.
    pub fn new(limits: &Limits, u: &mut Unstructured<'_>) -> Result<Component> {
        let input = u.peek_bytes(u.len()).unwrap_or_default();
        let made = generate(limits, input).map_err(|_| Error::IncorrectFormat)?;
        u.bytes(input.len() - made.left)?;
        Ok(Component { bytes: made.bytes })
    }

    /// The component in the binary format.
    pub fn as_bytes(&self) -> &[u8] {
        &self.bytes
    }

    /// A copy of it, as a component of wasm-smith returns.
    pub fn to_bytes(&self) -> Vec<u8> {
        self.bytes.clone()
    }
}

impl<'a> Arbitrary<'a> for Component {
    fn arbitrary(u: &mut Unstructured<'a>) -> Result<Self> {
        Component::new(&Limits { must_validate: true, ..Limits::fuzz() }, u)
    }
}

impl fmt::Debug for Component {
    fn fmt(&self, f: &mut fmt::Formatter<'_>) -> fmt::Result {
        match print(&self.bytes) {
            Ok(text) => f.write_str(&text),
            Err(_) => f.debug_tuple("Component").field(&self.bytes).finish(),
        }
    }
}
