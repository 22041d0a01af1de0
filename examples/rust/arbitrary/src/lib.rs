//! Stands in for the registry's crate of that name where there is no registry: it has what `lupinanon` and its tests use.

/// Why no value is made.
#[derive(Clone, Copy, Debug)]
#[non_exhaustive]
pub enum Error {
    NotEnoughData,
    IncorrectFormat,
}

pub type Result<T> = core::result::Result<T, Error>;

/// What a fuzzer's input makes.
pub trait Arbitrary<'a>: Sized {
    fn arbitrary(u: &mut Unstructured<'a>) -> Result<Self>;

    fn arbitrary_take_rest(mut u: Unstructured<'a>) -> Result<Self> {
        Self::arbitrary(&mut u)
    }

    fn size_hint(_depth: usize) -> (usize, Option<usize>) {
        (0, None)
    }
}

/// A fuzzer's input, of which the front is taken.
#[derive(Debug)]
pub struct Unstructured<'a> {
    data: &'a [u8],
}

impl<'a> Unstructured<'a> {
    pub fn new(data: &'a [u8]) -> Self {
        Unstructured { data }
    }

    pub fn len(&self) -> usize {
        self.data.len()
    }

    pub fn is_empty(&self) -> bool {
        self.data.is_empty()
    }

    pub fn peek_bytes(&self, size: usize) -> Option<&'a [u8]> {
        self.data.get(..size)
    }

    pub fn bytes(&mut self, size: usize) -> Result<&'a [u8]> {
        let bytes = self.peek_bytes(size).ok_or(Error::NotEnoughData)?;
        self.data = &self.data[size..];
        Ok(bytes)
    }
}
