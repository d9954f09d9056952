//! Stand-in for the crate `spongefish`, written by us: every name the six circuit
//! sources import from it.
//!
//! Document 01's first section and its byte forms give the meaning: a `u32` is 4
//! bytes, little-endian, and a reader walks over the bytes it was given and refuses
//! what they don't hold. The sponge, the session ids and with them
//! `PermutationInstance::digest` are left out of the port, so those names exist and
//! stop the program where one is run: no stand-in value can be taken for a digest.

use core::cell::Cell;

/// An element of the alphabet a sponge or a relation works over.
pub trait Unit: Clone + Sized {
    const ZERO: Self;
}

/// A value that has a byte form (or a form over another alphabet).
pub trait Encoding<T: ?Sized = [u8]> {
    fn encode(&self) -> impl AsRef<T>;
}

/// A value that can be read from the bytes of an argument string.
pub trait FromNarg: Sized {
    fn from_narg(reader: &NargReader<'_>) -> Result<Self, VerificationError>;
}

/// The bytes don't hold what was asked for.
#[derive(Clone, Copy, Debug, PartialEq, Eq)]
pub struct VerificationError;

/// A reader over lent bytes. It is handed around by shared reference, so its place
/// is in a cell: what remains to be read.
pub struct NargReader<'a> {
    rest: Cell<&'a [u8]>,
}

impl<'a> NargReader<'a> {
    pub const fn new(bytes: &'a [u8]) -> Self {
        Self {
            rest: Cell::new(bytes),
        }
    }

    /// Whether every byte has been read.
    pub fn is_empty(&self) -> bool {
        self.rest.get().is_empty()
    }

    /// The next `len` bytes. Where fewer remain, none of them is read.
    pub fn take(&self, len: usize) -> Result<&'a [u8], VerificationError> {
        let (taken, rest) = self
            .rest
            .get()
            .split_at_checked(len)
            .ok_or(VerificationError)?;
        self.rest.set(rest);
        Ok(taken)
    }

    /// The next `N` bytes as an array.
    pub fn take_array<const N: usize>(&self) -> Result<[u8; N], VerificationError> {
        self.take(N)?.try_into().map_err(|_| VerificationError)
    }

    /// The next value of type `T`.
    pub fn read<T: FromNarg>(&self) -> Result<T, VerificationError> {
        T::from_narg(self)
    }
}

impl FromNarg for u32 {
    fn from_narg(reader: &NargReader<'_>) -> Result<Self, VerificationError> {
        reader.take_array().map(Self::from_le_bytes)
    }
}

impl Encoding for u32 {
    fn encode(&self) -> impl AsRef<[u8]> {
        self.to_le_bytes()
    }
}

// The integers over which `expr.rs` has Boolean rings, also left out of the port.
impl Unit for u8 {
    const ZERO: Self = 0;
}

impl Unit for u32 {
    const ZERO: Self = 0;
}

impl Unit for u64 {
    const ZERO: Self = 0;
}

impl Unit for u128 {
    const ZERO: Self = 0;
}

/// A permutation of `WIDTH` units.
pub trait Permutation<const WIDTH: usize>: Clone {
    type U: Unit;

    fn permute(&self, state: &[Self::U; WIDTH]) -> [Self::U; WIDTH];

    fn permute_mut(&self, state: &mut [Self::U; WIDTH]) {
        *state = self.permute(state);
    }
}

/// A unit that byte strings embed into.
pub trait EncodedSessionId: Unit {
    fn encode_bytes(bytes: &[u8]) -> impl AsRef<[Self]>;
}

/// A sponge that starts from a session identifier.
pub trait DuplexSpongeInit: Sized {
    fn init(session_id: &[u8]) -> Self;
}

/// A sponge that absorbs and squeezes.
pub trait DuplexSpongeInterface {
    type U: Unit;

    fn absorb(&mut self, input: &[Self::U]) -> &mut Self;

    fn squeeze(&mut self, output: &mut [Self::U]) -> &mut Self;
}

/// The identifier of a session.
pub struct SessionId([u8; 32]);

impl SessionId {
    pub const fn as_bytes(&self) -> &[u8] {
        &self.0
    }
}

/// The hash behind `PermutationInstance::digest`.
pub struct DefaultHash(());

/// The session identifier that belongs to a tag.
pub fn derive_session_id<H: DuplexSpongeInit>(_tag: &[u8]) -> SessionId {
    left_out()
}

impl DuplexSpongeInit for DefaultHash {
    fn init(_session_id: &[u8]) -> Self {
        left_out()
    }
}

impl DuplexSpongeInterface for DefaultHash {
    type U = u8;

    fn absorb(&mut self, _input: &[u8]) -> &mut Self {
        left_out()
    }

    fn squeeze(&mut self, _output: &mut [u8]) -> &mut Self {
        left_out()
    }
}

fn left_out() -> ! {
    unimplemented!("sponges, session ids and digests are left out of the port")
}
