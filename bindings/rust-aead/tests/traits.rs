//! RFC 7253's samples, appendix A, the longer keys, and refusals, through the traits: in place, from one buffer to another, and with the tag
//! appended.
#![cfg(feature = "alloc")]
use rukensaz_aead::aead::consts::{U1, U12, U15, U17, U5};
use rukensaz_aead::aead::inout::InOutBuf;
use rukensaz_aead::aead::{Aead, AeadInOut, Error, KeyInit, Payload};
use rukensaz_aead::{Aes128Ocb3, Aes192Ocb3, Aes256Ocb3, Ocb3};

const KEY: [u8; 16] = [0, 1, 2, 3, 4, 5, 6, 7, 8, 9, 10, 11, 12, 13, 14, 15];
const EIGHT: [u8; 8] = [0, 1, 2, 3, 4, 5, 6, 7];
/// The second sample: associated data and plaintext are the eight bytes above.
const NONCE: [u8; 12] = [0xbb, 0xaa, 0x99, 0x88, 0x77, 0x66, 0x55, 0x44, 0x33, 0x22, 0x11, 0x01];
const CIPHERTEXT: [u8; 8] = [0x68, 0x20, 0xb3, 0x65, 0x7b, 0x6f, 0x61, 0x5a];
const TAG: [u8; 16] = [
    0x57, 0x25, 0xbd, 0xa0, 0xd3, 0xb4, 0xeb, 0x3a, 0x25, 0x7c, 0x9a, 0xf1, 0xf8, 0xf0, 0x30, 0x09,
];

#[test]
fn in_place() {
    let cipher = <Ocb3>::new_from_slice(&KEY).unwrap();
    let mut text = EIGHT;
    let tag = cipher
        .encrypt_inout_detached(&NONCE.into(), &EIGHT, text.as_mut_slice().into())
        .unwrap();
    assert_eq!((text, tag.0), (CIPHERTEXT, TAG));
    cipher
        .decrypt_inout_detached(&NONCE.into(), &EIGHT, text.as_mut_slice().into(), &tag)
        .unwrap();
    assert_eq!(text, EIGHT);
}

#[test]
fn from_one_buffer_to_another() {
    let cipher = <Ocb3>::new(&KEY.into());
    let mut out = [9; 8];
    let tag = cipher
        .encrypt_inout_detached(&NONCE.into(), &EIGHT, InOutBuf::new(&EIGHT, &mut out).unwrap())
        .unwrap();
    assert_eq!((out, tag.0), (CIPHERTEXT, TAG));
    let sealed = InOutBuf::new(&CIPHERTEXT, &mut out).unwrap();
    cipher
        .decrypt_inout_detached(&NONCE.into(), &EIGHT, sealed, &TAG.into())
        .unwrap();
    assert_eq!(out, EIGHT);
    let mut wrong = TAG;
    wrong[15] ^= 1;
    let sealed = InOutBuf::new(&CIPHERTEXT, &mut out).unwrap();
    assert_eq!(
        cipher.decrypt_inout_detached(&NONCE.into(), &EIGHT, sealed, &wrong.into()),
        Err(Error)
    );
    assert_eq!(out, [0; 8]);
}

#[test]
fn with_the_tag_appended() {
    let cipher = <Ocb3>::new(&KEY.into());
    let (nonce, aad) = (NONCE.into(), EIGHT.as_slice());
    let sealed = cipher.encrypt(&nonce, Payload { msg: &EIGHT, aad }).unwrap();
    assert_eq!(sealed, [&CIPHERTEXT[..], &TAG[..]].concat());
    assert_eq!(cipher.decrypt(&nonce, Payload { msg: &sealed, aad }).unwrap(), EIGHT);
    assert_eq!(cipher.decrypt(&nonce, Payload { msg: &sealed, aad: b"" }), Err(Error));
}

/// RFC 7253's sample with a tag of 12 bytes.
#[test]
fn another_tag_size() {
    let mut key = KEY;
    key.reverse();
    let mut nonce = NONCE;
    nonce[11] = 0x0d;
    let forty: Vec<u8> = (0..40).collect();
    let sealed = Ocb3::<U12, U12>::new(&key.into())
        .encrypt(
            &nonce.into(),
            Payload {
                msg: &forty,
                aad: &forty,
            },
        )
        .unwrap();
    assert_eq!(sealed[..4], [0x17, 0x92, 0xa4, 0xe3]);
    assert_eq!(
        sealed[40..],
        [0xd0, 0xc5, 0x15, 0xf4, 0xd1, 0xcd, 0xd4, 0xfd, 0xac, 0x4f, 0x02, 0xaa]
    );
}

/// The second sample's nonce, associated data and plaintext, under a key that counts up from 0.
fn seals_to<C: KeyInit + Aead<NonceSize = U12>>(ciphertext: [u8; 8], tag: [u8; 16]) {
    let key: Vec<u8> = (0u8..).take(C::key_size()).collect();
    let cipher = C::new_from_slice(&key).unwrap();
    let (nonce, aad) = (NONCE.into(), EIGHT.as_slice());
    let sealed = cipher.encrypt(&nonce, Payload { msg: &EIGHT, aad }).unwrap();
    assert_eq!(sealed, [&ciphertext[..], &tag[..]].concat());
    assert_eq!(cipher.decrypt(&nonce, Payload { msg: &sealed, aad }).unwrap(), EIGHT);
}

/// RFC 7253 has no samples over AES-192 and AES-256: these two are OpenSSL 3.0.19's (`EVP_aes_192_ocb`, `EVP_aes_256_ocb`), and libgcrypt 1.10.1
/// gives the same.
#[test]
fn three_key_sizes() {
    seals_to::<Aes128Ocb3>(CIPHERTEXT, TAG);
    seals_to::<Aes192Ocb3>(
        [0xd8, 0xc7, 0xf1, 0x2f, 0xb7, 0x48, 0x4c, 0x6f],
        [
            0x5a, 0xed, 0x3b, 0x18, 0x85, 0x85, 0xfc, 0x34, 0x65, 0x28, 0xe9, 0x3e, 0x2e, 0x73, 0xa8, 0x76,
        ],
    );
    seals_to::<Aes256Ocb3>(
        [0x9d, 0xbf, 0xab, 0x68, 0x06, 0xec, 0x03, 0x5c],
        [
            0x4b, 0x08, 0xce, 0x1f, 0x17, 0xba, 0x56, 0x10, 0x9f, 0x6f, 0x00, 0xa3, 0x4e, 0xdd, 0xe8, 0x31,
        ],
    );
}

#[test]
fn sizes_out_of_range_are_errors() {
    for length in [0, 15, 17, 23, 25, 31, 33, 64] {
        let key = vec![0; length];
        assert!(<Aes128Ocb3>::new_from_slice(&key).is_err());
        assert!(<Aes192Ocb3>::new_from_slice(&key).is_err());
        assert!(<Aes256Ocb3>::new_from_slice(&key).is_err());
    }
    assert!(<Aes256Ocb3>::new_from_slice(&KEY).is_err());
    let mut text = EIGHT;
    let short = Ocb3::<U5>::new(&KEY.into());
    assert_eq!(
        short.encrypt_inout_detached(&[0; 5].into(), b"", text.as_mut_slice().into()),
        Err(Error)
    );
    let long = Ocb3::<U15, U17>::new(&KEY.into());
    assert_eq!(
        long.encrypt_inout_detached(&[0; 15].into(), b"", text.as_mut_slice().into()),
        Err(Error)
    );
    assert_eq!(text, EIGHT);
    assert!(Ocb3::<U15, U1>::new(&KEY.into())
        .encrypt_inout_detached(&[0; 15].into(), b"", text.as_mut_slice().into())
        .is_ok());
}
