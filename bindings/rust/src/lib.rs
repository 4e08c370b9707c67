#![doc = include_str!("../README.md")]
#![no_std]
#![warn(missing_docs)]

mod spill;

pub use spill::{Row, Spill};

use core::fmt;
use core::sync::atomic::{compiler_fence, Ordering};

/// The bytes of a full tag.
pub const TAG_SIZE: usize = 16;

/// The bytes of a key's state.
pub const STATE_SIZE: usize = 720;

/// The most that `m` of [`Ocb3::with_places`] may be, for texts and data of at most 2^30 bytes.
pub const MOST_PLACES: usize = 26;

mod linked {
    extern "C" {
        pub fn ocb_set_up(state: *mut u8, state_length: usize, key: *const u8, key_length: usize, m: usize) -> usize;
        pub fn ocb_seal(
            state: *const u8,
            state_length: usize,
            nonce: *const u8,
            nonce_length: usize,
            data: *const u8,
            data_length: usize,
            text: *mut u8,
            text_length: usize,
            tag: *mut u8,
            tag_length: usize,
            calls: *mut usize,
        ) -> usize;
        pub fn ocb_open(
            state: *const u8,
            state_length: usize,
            nonce: *const u8,
            nonce_length: usize,
            data: *const u8,
            data_length: usize,
            text: *mut u8,
            text_length: usize,
            tag: *const u8,
            tag_length: usize,
            calls: *mut usize,
        ) -> usize;
        pub fn spill_read(
            state: *const u8,
            state_length: usize,
            buffer: *const u8,
            buffer_length: usize,
            file_length: usize,
            row: usize,
            tenant: u32,
            out: *mut u8,
            out_length: usize,
            written: *mut usize,
            calls: *mut usize,
        ) -> usize;
        pub fn spill_add(
            state: *const u8,
            state_length: usize,
            buffer: *mut u8,
            buffer_length: usize,
            file_length: usize,
            nonce: *const u8,
            nonce_length: usize,
            tenant: u32,
            text: *const u8,
            text_length: usize,
            new_length: *mut usize,
            calls: *mut usize,
        ) -> usize;
    }
}

/// Why a call was refused. [`Error::number`] gives the number of `include/ocb.h`.
#[derive(Clone, Copy, Debug, PartialEq, Eq)]
#[non_exhaustive]
pub enum Error {
    /// 1: the key is not 16, 24 or 32 bytes.
    KeySize,
    /// 2: `m` is not 1 to 26, or the state's rounds are not 10, 12 or 14; set up writes no others.
    Places,
    /// 3: the nonce is not 6 to 15 bytes.
    NonceSize,
    /// 4: the tag is not 1 to 16 bytes.
    TagSize,
    /// 5: the text has more than 2^(m + 4) bytes.
    TextSize,
    /// 6: the associated data have more than 2^(m + 4) bytes.
    DataSize,
    /// 7: the tag is not the text's. Every byte of the text is now zero, in a spill file's output too.
    TagDiffers {
        /// The number of blocks handed to the cipher.
        calls: usize,
    },
    /// 9: the output is shorter than the text.
    OutputSize,
    /// 10: the file is longer than its buffer or than 65,536 bytes, has more than 256 rows, or is too short for its table.
    FileSize,
    /// 11: a row has the tenant number 0, a body under 16 bytes or past the file's end, or a place other than that at which its body has
    /// to start.
    BadRow,
    /// 12: the file has bytes behind its last body.
    TrailingBytes,
    /// 13: the row is another tenant's.
    OtherTenant,
    /// 14: the file has no row of this number.
    NoRow,
    /// 15: a row of the file has this nonce.
    NonceUsed,
    /// 16: the file has 256 rows, or would be longer than its buffer or than 65,536 bytes.
    FileFull,
    /// 17: the tenant number is 0.
    TenantZero,
    /// Any other number: the library is not the one that this crate was written for.
    Unknown(usize),
}

impl Error {
    fn of(number: usize, calls: usize) -> Result<usize, Error> {
        match number {
            0 => Ok(calls),
            1 => Err(Error::KeySize),
            2 => Err(Error::Places),
            3 => Err(Error::NonceSize),
            4 => Err(Error::TagSize),
            5 => Err(Error::TextSize),
            6 => Err(Error::DataSize),
            7 => Err(Error::TagDiffers { calls }),
            9 => Err(Error::OutputSize),
            10 => Err(Error::FileSize),
            11 => Err(Error::BadRow),
            12 => Err(Error::TrailingBytes),
            13 => Err(Error::OtherTenant),
            14 => Err(Error::NoRow),
            15 => Err(Error::NonceUsed),
            16 => Err(Error::FileFull),
            17 => Err(Error::TenantZero),
            other => Err(Error::Unknown(other)),
        }
    }

    /// The number that the library gave.
    #[must_use]
    pub fn number(&self) -> usize {
        match *self {
            Error::KeySize => 1,
            Error::Places => 2,
            Error::NonceSize => 3,
            Error::TagSize => 4,
            Error::TextSize => 5,
            Error::DataSize => 6,
            Error::TagDiffers { .. } => 7,
            Error::OutputSize => 9,
            Error::FileSize => 10,
            Error::BadRow => 11,
            Error::TrailingBytes => 12,
            Error::OtherTenant => 13,
            Error::NoRow => 14,
            Error::NonceUsed => 15,
            Error::FileFull => 16,
            Error::TenantZero => 17,
            Error::Unknown(number) => number,
        }
    }
}

/// The texts of `ocb_message` in `include/ocb.h`.
impl fmt::Display for Error {
    fn fmt(&self, f: &mut fmt::Formatter<'_>) -> fmt::Result {
        match self {
            Error::KeySize => f.write_str("the key is not 16, 24 or 32 bytes"),
            Error::Places => f.write_str("m is not 1 to 26, or the state's rounds are not 10, 12 or 14"),
            Error::NonceSize => f.write_str("the nonce is not 6 to 15 bytes, or for a spill file not 12"),
            Error::TagSize => f.write_str("the tag is not 1 to 16 bytes"),
            Error::TextSize => f.write_str("the text is too long for the places"),
            Error::DataSize => f.write_str("the associated data are too long for the places"),
            Error::TagDiffers { .. } => f.write_str("the tag differs"),
            Error::OutputSize => f.write_str("the output is shorter than the text"),
            Error::FileSize => f.write_str("the file is too long, has too many rows, or is too short for its table"),
            Error::BadRow => f.write_str("a row has the tenant number 0, or its body is too short or out of place"),
            Error::TrailingBytes => f.write_str("the file has bytes behind its last body"),
            Error::OtherTenant => f.write_str("the row is another tenant's"),
            Error::NoRow => f.write_str("the file has no such row"),
            Error::NonceUsed => f.write_str("a row of the file has this nonce"),
            Error::FileFull => f.write_str("the file has no room for another row"),
            Error::TenantZero => f.write_str("the tenant number is 0"),
            Error::Unknown(number) => write!(f, "the library answered {number}"),
        }
    }
}

impl core::error::Error for Error {}

/// The state of a key, as secret as the key. It is wiped when it is dropped; where it was moved from, or what the linked functions left on
/// the stack, is not.
#[derive(Clone)]
pub struct Ocb3 {
    state: [u8; STATE_SIZE],
}

impl fmt::Debug for Ocb3 {
    fn fmt(&self, f: &mut fmt::Formatter<'_>) -> fmt::Result {
        f.write_str("Ocb3 { .. }")
    }
}

impl Drop for Ocb3 {
    fn drop(&mut self) {
        for byte in &mut self.state {
            // Safety: the reference is valid to write to. The compiler keeps a volatile write, though nothing reads the byte again.
            unsafe { core::ptr::write_volatile(byte, 0) };
        }
        compiler_fence(Ordering::SeqCst);
    }
}

impl Ocb3 {
    /// The state of a key of 16, 24 or 32 bytes, for texts and data of at most 2^30 bytes. A key of another length does not compile:
    ///
    /// ```compile_fail
    /// let cipher = rukensaz::Ocb3::new(&[0; 17]);
    /// ```
    ///
    /// # Panics
    ///
    /// Where the linked library is not the one that this crate was written for.
    #[must_use]
    pub fn new<const KEY_SIZE: usize>(key: &[u8; KEY_SIZE]) -> Ocb3 {
        const { assert!(matches!(KEY_SIZE, 16 | 24 | 32), "the key is not 16, 24 or 32 bytes") };
        Ocb3::with_places(key, MOST_PLACES).expect("a key of 16, 24 or 32 bytes")
    }

    /// The state of a key, for texts and data of at most 2^30 bytes.
    ///
    /// # Errors
    ///
    /// [`Error::KeySize`] where the key is not 16, 24 or 32 bytes.
    pub fn new_from_slice(key: &[u8]) -> Result<Ocb3, Error> {
        Ocb3::with_places(key, MOST_PLACES)
    }

    /// The state of a key, for texts and data of at most 2^(m + 4) bytes: its table of L values has a place for `L_0` and `m` places behind
    /// it, for `L_1` to `L_m`.
    ///
    /// # Errors
    ///
    /// [`Error::KeySize`] where the key is not 16, 24 or 32 bytes, [`Error::Places`] where `m` is not 1 to 26.
    pub fn with_places(key: &[u8], m: usize) -> Result<Ocb3, Error> {
        let mut made = Ocb3 { state: [0; STATE_SIZE] };
        let state = &mut made.state;
        // Safety: each pointer is a live slice's, with that slice's length, and the state is lent to nobody else.
        let number = unsafe { linked::ocb_set_up(state.as_mut_ptr(), state.len(), key.as_ptr(), key.len(), m) };
        Error::of(number, 0).map(|_| made)
    }

    /// Seals the buffer where it lies and gives the tag of 16 bytes. Never use a nonce twice under one key.
    ///
    /// # Errors
    ///
    /// A nonce that is not 6 to 15 bytes, a buffer or associated data too long for the places. The buffer is then as it was.
    pub fn encrypt_in_place_detached(
        &self,
        nonce: &[u8],
        associated_data: &[u8],
        buffer: &mut [u8],
    ) -> Result<[u8; TAG_SIZE], Error> {
        let mut tag = [0; TAG_SIZE];
        self.seal_in_place_detached(nonce, associated_data, buffer, &mut tag)
            .map(|_| tag)
    }

    /// Opens the buffer where it lies if the tag is the one that sealing it gives.
    ///
    /// # Errors
    ///
    /// [`Error::TagDiffers`] where it is not: every byte of the buffer is then zero. A nonce that is not 6 to 15 bytes, a buffer or
    /// associated data too long for the places: the buffer is then as it was.
    pub fn decrypt_in_place_detached(
        &self,
        nonce: &[u8],
        associated_data: &[u8],
        buffer: &mut [u8],
        tag: &[u8; TAG_SIZE],
    ) -> Result<(), Error> {
        self.open_in_place_detached(nonce, associated_data, buffer, tag).map(|_| ())
    }

    /// Seals as [`Ocb3::encrypt_in_place_detached`] does, with a tag of any size from 1 to 16 bytes, written over the whole of `tag`. Gives
    /// the number of blocks handed to the cipher.
    ///
    /// # Errors
    ///
    /// As there, and [`Error::TagSize`]. The buffer and the tag are then as they were.
    pub fn seal_in_place_detached(
        &self,
        nonce: &[u8],
        associated_data: &[u8],
        buffer: &mut [u8],
        tag: &mut [u8],
    ) -> Result<usize, Error> {
        let mut calls = 0;
        // Safety: each pointer is a live slice's, with that slice's length, and the mutable ones are lent to nobody else.
        let number = unsafe {
            linked::ocb_seal(
                self.state.as_ptr(),
                self.state.len(),
                nonce.as_ptr(),
                nonce.len(),
                associated_data.as_ptr(),
                associated_data.len(),
                buffer.as_mut_ptr(),
                buffer.len(),
                tag.as_mut_ptr(),
                tag.len(),
                &mut calls,
            )
        };
        Error::of(number, calls)
    }

    /// Opens as [`Ocb3::decrypt_in_place_detached`] does, with a tag of any size from 1 to 16 bytes. Gives the number of blocks handed to
    /// the cipher. A short tag is soon guessed: let its size be agreed beforehand, never what a message brings.
    ///
    /// # Errors
    ///
    /// As there, and [`Error::TagSize`], with the buffer as it was.
    pub fn open_in_place_detached(
        &self,
        nonce: &[u8],
        associated_data: &[u8],
        buffer: &mut [u8],
        tag: &[u8],
    ) -> Result<usize, Error> {
        let mut calls = 0;
        // Safety: each pointer is a live slice's, with that slice's length, and the mutable ones are lent to nobody else.
        let number = unsafe {
            linked::ocb_open(
                self.state.as_ptr(),
                self.state.len(),
                nonce.as_ptr(),
                nonce.len(),
                associated_data.as_ptr(),
                associated_data.len(),
                buffer.as_mut_ptr(),
                buffer.len(),
                tag.as_ptr(),
                tag.len(),
                &mut calls,
            )
        };
        Error::of(number, calls)
    }
}
