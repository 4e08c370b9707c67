//! The crate over AES-128, AES-192 and AES-256 with a count of the blocks that it hands to the cipher. Its sizes are types, so each combination is an instance
//! of its own: nonces of 6 to 15 bytes, tags of 1 to 16, tables of size 0 to 27. A size of 0 or of 27 is outside what the port admits, but the crate
//! compiles with it. Which of the ciphers stands behind the count is found when it runs, so that they share the instances.

use std::cell::Cell;
use std::panic::{AssertUnwindSafe, catch_unwind};

use aes::{Aes128, Aes192, Aes256};
use cipher::{
    Block, BlockCipherDecBackend, BlockCipherDecClosure, BlockCipherDecrypt, BlockCipherEncBackend, BlockCipherEncClosure, BlockCipherEncrypt, BlockSizeUser,
    InOut, KeyInit, ParBlocksSizeUser, consts::*,
};
use ocb3::{AeadCore, AeadInOut, Array, Ocb3};

use crate::case::Case;

/// What one call of the crate came to.
pub enum Outcome {
    Done,
    Refused,
    Panicked,
}

/// The cipher that the key's length asks for.
enum Aes {
    Short(Aes128),
    Middle(Aes192),
    Long(Aes256),
}

/// `None` where the crate's own set-up over this cipher refuses the key.
fn keyed<Cipher: KeyInit>(key: &[u8]) -> Option<Cipher>
where
    Ocb3<Cipher>: KeyInit,
{
    Ocb3::<Cipher>::new_from_slice(key).ok()?;
    Cipher::new_from_slice(key).ok()
}

/// AES that counts every block, one at a time.
pub struct Counting<'a> {
    aes: Aes,
    calls: &'a Cell<u32>,
}

impl<'a> Counting<'a> {
    /// `None` where the crate's own set-up refuses the key over each of the three.
    pub fn new(key: &[u8], calls: &'a Cell<u32>) -> Option<Self> {
        let aes = keyed(key).map(Aes::Short).or_else(|| keyed(key).map(Aes::Middle)).or_else(|| keyed(key).map(Aes::Long))?;
        Some(Counting { aes, calls })
    }

    fn count(&self) {
        self.calls.set(self.calls.get() + 1);
    }
}

impl BlockSizeUser for Counting<'_> {
    type BlockSize = U16;
}

impl ParBlocksSizeUser for Counting<'_> {
    type ParBlocksSize = U1;
}

impl BlockCipherEncBackend for Counting<'_> {
    fn encrypt_block(&self, block: InOut<'_, '_, Block<Self>>) {
        self.count();
        match &self.aes {
            Aes::Short(aes) => aes.encrypt_block_inout(block),
            Aes::Middle(aes) => aes.encrypt_block_inout(block),
            Aes::Long(aes) => aes.encrypt_block_inout(block),
        }
    }
}

impl BlockCipherDecBackend for Counting<'_> {
    fn decrypt_block(&self, block: InOut<'_, '_, Block<Self>>) {
        self.count();
        match &self.aes {
            Aes::Short(aes) => aes.decrypt_block_inout(block),
            Aes::Middle(aes) => aes.decrypt_block_inout(block),
            Aes::Long(aes) => aes.decrypt_block_inout(block),
        }
    }
}

impl BlockCipherEncrypt for Counting<'_> {
    fn encrypt_with_backend(&self, work: impl BlockCipherEncClosure<BlockSize = U16>) {
        work.call(self);
    }
}

impl BlockCipherDecrypt for Counting<'_> {
    fn decrypt_with_backend(&self, work: impl BlockCipherDecClosure<BlockSize = U16>) {
        work.call(self);
    }
}

/// Sets up the instance `Mode` and puts the case to it. Text and tag of the case are left as the crate leaves them; the count is that of the call, without
/// set-up.
fn ask<'a, Mode: AeadInOut + From<Counting<'a>>>(cipher: Counting<'a>, case: &mut Case) -> Outcome {
    let calls = cipher.calls;
    let mode = Mode::from(cipher);
    calls.set(0);
    let nonce: &Array<u8, <Mode as AeadCore>::NonceSize> = case.nonce.as_slice().try_into().expect("a nonce of the instance's length");
    let given: Array<u8, <Mode as AeadCore>::TagSize> = case.tag.as_slice().try_into().expect("a tag of the instance's length");
    let text = case.text.as_mut_slice().into();
    let answer = catch_unwind(AssertUnwindSafe(|| match case.open {
        true => mode.decrypt_inout_detached(nonce, &case.data, text, &given).map(|()| given),
        false => mode.encrypt_inout_detached(nonce, &case.data, text),
    }));
    match answer {
        Ok(Ok(tag)) => {
            case.tag.copy_from_slice(&tag);
            Outcome::Done
        }
        Ok(Err(_)) => Outcome::Refused,
        Err(_) => Outcome::Panicked,
    }
}

pub type Instance = for<'a> fn(Counting<'a>, &mut Case) -> Outcome;

macro_rules! each_table {
    ($nonce:ty, $tag:ty, $($m:literal)*) => { [$(|cipher, case| ask::<Ocb3<Counting, $nonce, $tag, $m>>(cipher, case)),*] };
}

macro_rules! each_tag {
    ($nonce:ty, $($tag:ty)*) => {
        [$(each_table!($nonce, $tag, 0 1 2 3 4 5 6 7 8 9 10 11 12 13 14 15 16 17 18 19 20 21 22 23 24 25 26 27)),*]
    };
}

macro_rules! each_nonce {
    ($($nonce:ty)*) => { [$(each_tag!($nonce, U1 U2 U3 U4 U5 U6 U7 U8 U9 U10 U11 U12 U13 U14 U15 U16)),*] };
}

static INSTANCES: [[[Instance; 28]; 16]; 10] = each_nonce!(U6 U7 U8 U9 U10 U11 U12 U13 U14 U15);

/// The instance for the case's sizes, or which of them no instance has.
pub fn instance(case: &Case) -> Result<Instance, &'static str> {
    let nonces = case.nonce.len().checked_sub(6).and_then(|i| INSTANCES.get(i)).ok_or("nonce")?;
    let tags = case.tag.len().checked_sub(1).and_then(|i| nonces.get(i)).ok_or("tag")?;
    tags.get(case.m as usize).copied().ok_or("m")
}
