//! A spill file in a borrowed buffer.
use crate::{linked, Error, Ocb3, STATE_SIZE, TAG_SIZE};
use core::fmt;

/// A row of a [`Spill`]: whose text it has, and how long the text is.
#[derive(Clone, Copy, Debug, PartialEq, Eq, Hash)]
pub struct Row {
    /// The number of the tenant that the text was sealed for.
    pub tenant: u32,
    /// The bytes of the text when it is opened.
    pub length: usize,
}

/// A spill file: the sealed texts of many tenants, at the front of a borrowed buffer. Each row has a text, which is sealed with its tenant's
/// number as associated data and read by who names row and tenant. `include/ocb.h` says how a file is laid out.
///
/// A `Spill` is a file that the library accepted, and nobody else can write to its buffer while it lives. But a tag speaks for its row alone:
/// who can write to the file otherwise can take rows out, put them in another order or put back older ones.
///
/// ```
/// use rukensaz::{Error, Ocb3, Spill};
///
/// let cipher = Ocb3::new(&[0; 16]);
/// let mut buffer = vec![0; Spill::MOST_BYTES];
/// let mut spill = Spill::new(&mut buffer)?;
/// spill.add(&cipher, &[1; 12], 7, b"503 Service Unavailable")?;
/// let mut stored = spill.as_bytes().to_vec();
///
/// let length = stored.len();
/// let spill = Spill::from_file(&mut stored, length)?;
/// let mut page = [0; 100];
/// let (text, _calls) = spill.read(&cipher, 0, 7, &mut page)?;
/// assert_eq!(text, b"503 Service Unavailable");
/// # Ok::<(), Error>(())
/// ```
pub struct Spill<'a> {
    buffer: &'a mut [u8],
    length: usize,
}

impl fmt::Debug for Spill<'_> {
    fn fmt(&self, f: &mut fmt::Formatter<'_>) -> fmt::Result {
        f.debug_struct("Spill").field("length", &self.length).finish_non_exhaustive()
    }
}

/// The number that these bytes have, the lowest first.
fn number(bytes: &[u8]) -> u32 {
    bytes.iter().rev().fold(0, |higher, byte| higher << 8 | u32::from(*byte))
}

impl<'a> Spill<'a> {
    /// The most rows that a file may have.
    pub const MOST_ROWS: usize = 256;

    /// The most bytes that a file may have. An empty one has 4; a text takes 40 bytes and its own length.
    pub const MOST_BYTES: usize = 65_536;

    /// The bytes of a nonce.
    pub const NONCE_SIZE: usize = 12;

    /// An empty file, written over the first four bytes of the buffer.
    ///
    /// # Errors
    ///
    /// [`Error::FileSize`] where the buffer has fewer. It is then as it was.
    pub fn new(buffer: &'a mut [u8]) -> Result<Spill<'a>, Error> {
        let empty = [0; 4];
        if let Some(front) = buffer.first_chunk_mut() {
            *front = empty;
        }
        Spill::from_file(buffer, empty.len())
    }

    /// The file that the first `length` bytes of the buffer are. They may come from anywhere.
    ///
    /// # Errors
    ///
    /// [`Error::FileSize`], [`Error::BadRow`] or [`Error::TrailingBytes`] where they are none.
    pub fn from_file(buffer: &'a mut [u8], length: usize) -> Result<Spill<'a>, Error> {
        let file = Spill { buffer, length };
        // The library has no call that tests a file and does nothing else. But who reads a row that no file has is answered with 14 exactly if
        // the file is accepted, and whatever the state, the tenant and the output are. So the rules of a file stand in the library alone.
        match file.ask(&[0; STATE_SIZE], usize::MAX, 0, &mut []) {
            Err(Error::NoRow) => Ok(file),
            Err(error) => Err(error),
            Ok(_) => Err(Error::Unknown(0)),
        }
    }

    /// The bytes of the file. The buffer may have more behind them.
    #[must_use]
    pub fn as_bytes(&self) -> &[u8] {
        &self.buffer[..self.length]
    }

    /// The rows of the file, in their order.
    #[must_use]
    pub fn rows(&self) -> impl ExactSizeIterator<Item = Row> + '_ {
        // In a file that the library accepted the count and its rows of 24 bytes are there, and a body's length counts the tag.
        let (count, behind) = self.as_bytes().split_at(4);
        behind.chunks_exact(24).take(number(count) as usize).map(|row| Row {
            tenant: number(&row[12..16]),
            length: number(&row[20..24]) as usize - TAG_SIZE,
        })
    }

    /// Opens the text of a row, counted from 0, for its tenant, and writes it to the front of `out`. Gives it there, with the number of
    /// blocks handed to the cipher. Bytes of `out` behind the text never change.
    ///
    /// # Errors
    ///
    /// [`Error::TagDiffers`] where the row is not what this cipher sealed: the first bytes of `out`, as many as [`Row::length`] says, are then
    /// zero. [`Error::NoRow`], [`Error::OtherTenant`], [`Error::OutputSize`] where `out` is shorter than the text, [`Error::TextSize`] where the
    /// text is too long for the cipher's places: `out` is then as it was.
    pub fn read<'o>(&self, cipher: &Ocb3, row: usize, tenant: u32, out: &'o mut [u8]) -> Result<(&'o [u8], usize), Error> {
        self.ask(&cipher.state, row, tenant, out)
    }

    /// Seals a text for a tenant and adds it as the last row. The rows that are there are not opened: they may be under other keys. Gives the
    /// number of blocks handed to the cipher.
    ///
    /// Never use a nonce twice under one key. Only a nonce that is in this file is refused: one that was used for another file, or by
    /// [`Ocb3`] itself, is not.
    ///
    /// # Errors
    ///
    /// [`Error::TenantZero`], [`Error::NonceUsed`], [`Error::FileFull`], [`Error::TextSize`] where the text is too long for the cipher's
    /// places. The whole buffer is then as it was.
    pub fn add(&mut self, cipher: &Ocb3, nonce: &[u8; Spill::NONCE_SIZE], tenant: u32, text: &[u8]) -> Result<usize, Error> {
        let mut calls = 0;
        // Safety: each pointer is a live slice's, with that slice's length, and the mutable ones are lent to nobody else.
        let number = unsafe {
            linked::spill_add(
                cipher.state.as_ptr(),
                cipher.state.len(),
                self.buffer.as_mut_ptr(),
                self.buffer.len(),
                self.length,
                nonce.as_ptr(),
                nonce.len(),
                tenant,
                text.as_ptr(),
                text.len(),
                &mut self.length,
                &mut calls,
            )
        };
        Error::of(number, calls)
    }

    /// What the library answers to who reads with these bytes as a state.
    fn ask<'o>(&self, state: &[u8; STATE_SIZE], row: usize, tenant: u32, out: &'o mut [u8]) -> Result<(&'o [u8], usize), Error> {
        let (mut written, mut calls) = (0, 0);
        // Safety: each pointer is a live slice's, with that slice's length, and the mutable ones are lent to nobody else.
        let number = unsafe {
            linked::spill_read(
                state.as_ptr(),
                state.len(),
                self.buffer.as_ptr(),
                self.buffer.len(),
                self.length,
                row,
                tenant,
                out.as_mut_ptr(),
                out.len(),
                &mut written,
                &mut calls,
            )
        };
        Error::of(number, calls).map(|calls| (&out[..written], calls))
    }
}
