#![doc = include_str!("../README.md")]
#![no_std]
#![forbid(unsafe_code)]
#![warn(missing_docs)]

pub use aead;

use aead::array::ArraySize;
use aead::consts::{U12, U16, U24, U32};
use aead::inout::InOutBuf;
use aead::{AeadCore, AeadInOut, Error, Key, KeyInit, KeySizeUser, Nonce, Tag, TagPosition};
use core::marker::PhantomData;

/// OCB3 over AES-128: keys of 16 bytes.
pub type Aes128Ocb3<NonceSize = U12, TagSize = U16> = Ocb3<NonceSize, TagSize, U16>;

/// OCB3 over AES-192: keys of 24 bytes.
pub type Aes192Ocb3<NonceSize = U12, TagSize = U16> = Ocb3<NonceSize, TagSize, U24>;

/// OCB3 over AES-256: keys of 32 bytes.
pub type Aes256Ocb3<NonceSize = U12, TagSize = U16> = Ocb3<NonceSize, TagSize, U32>;

/// The state of a key, for nonces and tags of these sizes and texts and data of at most 2^30 bytes. A key size that AES does not have does not
/// compile:
///
/// ```compile_fail
/// use rukensaz_aead::aead::{consts::{U12, U16, U17}, KeyInit};
/// let cipher = rukensaz_aead::Ocb3::<U12, U16, U17>::new(&[0; 17].into());
/// ```
#[derive(Clone, Debug)]
pub struct Ocb3<NonceSize = U12, TagSize = U16, KeySize = U16> {
    state: rukensaz::Ocb3,
    sizes: PhantomData<(NonceSize, TagSize, KeySize)>,
}

mod sealed {
    use super::{ArraySize, U16, U24, U32};

    /// A size of keys that AES has.
    pub trait KeySize: ArraySize {}
    impl KeySize for U16 {}
    impl KeySize for U24 {}
    impl KeySize for U32 {}
}

impl<N, T, K: sealed::KeySize> KeySizeUser for Ocb3<N, T, K> {
    type KeySize = K;
}

impl<N, T, K: sealed::KeySize> KeyInit for Ocb3<N, T, K> {
    fn new(key: &Key<Self>) -> Self {
        Ocb3 {
            state: rukensaz::Ocb3::new_from_slice(key).expect("a key of 16, 24 or 32 bytes"),
            sizes: PhantomData,
        }
    }
}

impl<N: ArraySize, T: ArraySize, K> AeadCore for Ocb3<N, T, K> {
    type NonceSize = N;
    type TagSize = T;
    const TAG_POSITION: TagPosition = TagPosition::Postfix;
}

/// Where input and output are two buffers, the input is copied to the output, which is then worked on in place.
impl<N: ArraySize, T: ArraySize, K> AeadInOut for Ocb3<N, T, K> {
    fn encrypt_inout_detached(
        &self,
        nonce: &Nonce<Self>,
        associated_data: &[u8],
        buffer: InOutBuf<'_, '_, u8>,
    ) -> Result<Tag<Self>, Error> {
        let (text, mut tag) = (buffer.into_out_with_copied_in(), Tag::<Self>::default());
        let sealed = self.state.seal_in_place_detached(nonce, associated_data, text, &mut tag);
        sealed.map(|_| tag).map_err(|_| Error)
    }

    fn decrypt_inout_detached(
        &self,
        nonce: &Nonce<Self>,
        associated_data: &[u8],
        buffer: InOutBuf<'_, '_, u8>,
        tag: &Tag<Self>,
    ) -> Result<(), Error> {
        let text = buffer.into_out_with_copied_in();
        let opened = self.state.open_in_place_detached(nonce, associated_data, text, tag);
        opened.map(|_| ()).map_err(|_| Error)
    }
}
