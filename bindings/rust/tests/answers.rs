//! Each refusal through the linked library and what it leaves, the texts of the errors, and the wiping of a state.
use rukensaz::{Error, Ocb3, STATE_SIZE, TAG_SIZE};
use std::mem::MaybeUninit;

const KEY: [u8; 16] = [7; 16];

#[test]
fn the_state_has_the_library_s_size() {
    extern "C" {
        fn ocb_state_size() -> usize;
    }
    // Safety: the function takes nothing and touches no memory.
    assert_eq!(unsafe { ocb_state_size() }, STATE_SIZE);
    assert_eq!(size_of::<Ocb3>(), STATE_SIZE);
}

#[test]
fn set_up_is_refused_by_number() {
    for length in [0, 15, 17, 23, 25, 31, 33, 64] {
        let key = vec![7; length];
        assert_eq!(Ocb3::new_from_slice(&key).unwrap_err(), Error::KeySize, "{length}");
        assert_eq!(Ocb3::with_places(&key, 0).unwrap_err(), Error::KeySize, "{length}");
    }
    for length in [16, 24, 32] {
        let key = vec![7; length];
        assert_eq!(Ocb3::with_places(&key, 0).unwrap_err(), Error::Places, "{length}");
        assert_eq!(Ocb3::with_places(&key, 27).unwrap_err(), Error::Places, "{length}");
    }
}

#[test]
fn sizes_are_refused_and_change_nothing() {
    let cipher = Ocb3::with_places(&KEY, 1).unwrap();
    for (nonce, data, text, tag, wanted) in [
        (5, 0, 0, 0, Error::NonceSize),
        (16, 0, 0, 1, Error::NonceSize),
        (6, 0, 33, 0, Error::TagSize),
        (6, 0, 33, 17, Error::TagSize),
        (15, 0, 33, 16, Error::TextSize),
        (15, 33, 33, 16, Error::TextSize),
        (15, 33, 32, 16, Error::DataSize),
        (15, 33, 0, 16, Error::DataSize),
    ] {
        let (nonce, data, mut text, mut tag) = (vec![1; nonce], vec![2; data], vec![3; text], vec![4; tag]);
        let (text_before, tag_before) = (text.clone(), tag.clone());
        assert_eq!(cipher.seal_in_place_detached(&nonce, &data, &mut text, &mut tag), Err(wanted));
        assert_eq!(cipher.open_in_place_detached(&nonce, &data, &mut text, &tag), Err(wanted));
        if tag.len() == TAG_SIZE {
            assert_eq!(cipher.encrypt_in_place_detached(&nonce, &data, &mut text), Err(wanted));
        }
        assert_eq!((text, tag), (text_before, tag_before));
    }
}

#[test]
fn a_changed_tag_leaves_zeros() {
    let cipher = Ocb3::with_places(&KEY, 1).unwrap();
    let (nonce, plain) = ([1; 12], [3; 31]);
    let (mut sealed, mut tag) = (plain, [0; TAG_SIZE]);
    assert_eq!(cipher.seal_in_place_detached(&nonce, b"", &mut sealed, &mut tag), Ok(4));
    for byte in 0..tag.len() {
        let (mut text, mut wrong) = (sealed, tag);
        wrong[byte] ^= 1;
        assert_eq!(
            cipher.decrypt_in_place_detached(&nonce, b"", &mut text, &wrong),
            Err(Error::TagDiffers { calls: 4 })
        );
        assert_eq!(text, [0; 31]);
    }
    assert_eq!(cipher.open_in_place_detached(&nonce, b"", &mut sealed, &tag), Ok(4));
    assert_eq!(sealed, plain);
}

#[test]
fn the_texts_are_those_of_the_header() {
    let header = include_str!("../../../include/ocb.h");
    for (error, name) in [
        (Error::KeySize, "KEY_SIZE"),
        (Error::Places, "PLACES"),
        (Error::NonceSize, "NONCE_SIZE"),
        (Error::TagSize, "TAG_SIZE"),
        (Error::TextSize, "TEXT_SIZE"),
        (Error::DataSize, "DATA_SIZE"),
        (Error::TagDiffers { calls: 2 }, "TAG_DIFFERS"),
        (Error::OutputSize, "OUTPUT_SIZE"),
        (Error::FileSize, "FILE_SIZE"),
        (Error::BadRow, "BAD_ROW"),
        (Error::TrailingBytes, "TRAILING_BYTES"),
        (Error::OtherTenant, "OTHER_TENANT"),
        (Error::NoRow, "NO_ROW"),
        (Error::NonceUsed, "NONCE_USED"),
        (Error::FileFull, "FILE_FULL"),
        (Error::TenantZero, "TENANT_ZERO"),
    ] {
        assert!(header.contains(&format!("OCB_{name} = {},", error.number())), "{name}");
        assert!(header.contains(&format!("case OCB_{name}: return \"{error}\";")), "{name}");
    }
}

#[test]
fn a_dropped_state_is_wiped() {
    let mut place = MaybeUninit::new(Ocb3::new(&KEY));
    let held = place.as_mut_ptr();
    // Safety: the place holds a state, which is dropped once; its bytes stay readable.
    let (before, after) = unsafe {
        let before = held.cast::<[u8; STATE_SIZE]>().read_volatile();
        held.drop_in_place();
        (before, held.cast::<[u8; STATE_SIZE]>().read_volatile())
    };
    assert!(before.starts_with(&KEY)); // the first round key is the key
    assert_eq!(after, [0; STATE_SIZE]);
}
