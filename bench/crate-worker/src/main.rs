//! Times the crate ocb3: crate-worker [KEY_LENGTH], with the same key lengths and the same lines in and out as bench/measure.c, and a table of 26
//! places whatever M is.
use aes::{Aes128, Aes192, Aes256};
use ocb3::aead::{AeadInOut, KeyInit};
use ocb3::consts::{U12, U16};
use ocb3::{Array, Ocb3};
use std::io::BufRead;
use std::mem::MaybeUninit;

type Mode<Cipher> = Ocb3<Cipher, U12, U16, 26>;

const DATA: [u8; 4] = [7, 0, 0, 0];

/// The processor time that this program has taken, in nanoseconds.
fn now() -> u64 {
    #[repr(C)]
    struct Time {
        seconds: i64,
        nanoseconds: i64,
    }
    unsafe extern "C" {
        fn clock_gettime(clock: i32, time: *mut Time) -> i32;
    }
    const PROCESS_CPU: i32 = 2;
    let mut time = MaybeUninit::uninit();
    // Safety: clock_gettime fills the structure, whose layout is Linux's on 64 bits.
    let time: Time = unsafe {
        assert_eq!(clock_gettime(PROCESS_CPU, time.as_mut_ptr()), 0);
        time.assume_init()
    };
    time.seconds as u64 * 1_000_000_000 + time.nanoseconds as u64
}

fn set_up<M: KeyInit>() -> M {
    M::new(&Array::from_fn(|i| i as u8))
}

fn number(i: u32) -> Array<u8, U12> {
    let mut nonce = [0; 12];
    nonce[8..].copy_from_slice(&i.to_be_bytes());
    nonce.into()
}

/// FNV-1a.
fn digest(bytes: impl Iterator<Item = u8>) -> u64 {
    bytes.fold(0xcbf29ce484222325, |d, byte| (d ^ byte as u64).wrapping_mul(0x100000001b3))
}

fn serve<M: KeyInit + AeadInOut<NonceSize = U12, TagSize = U16>>() {
    let mut mode: M = set_up();
    for line in std::io::stdin().lock().lines() {
        let line = line.expect("a line");
        let words: Vec<&str> = line.split(' ').collect();
        let [job, _m, length, count] = words[..] else { panic!("a job, an m, a length and a count: {line}") };
        let (length, count): (usize, u32) = (length.parse().expect("a length"), count.parse().expect("a count"));
        let (sets_up, seals, opens) = match job {
            "set-up" => (true, false, false),
            "set-up-and-seal" => (true, true, false),
            "seal" => (false, true, false),
            "open" => (false, false, true),
            _ => panic!("there is no such job: {line}"),
        };
        let only_set_up = sets_up && !seals;
        let length = if only_set_up { 32 } else { length }; // sealed after the last set-up
        let (mut text, mut sealed) = (vec![0; length], vec![0; length]);
        let mut tag = Array::default();
        if opens {
            tag = mode.encrypt_inout_detached(&number(1), &DATA, sealed.as_mut_slice().into()).expect("a seal");
        }
        let began = now();
        for i in 1..=count {
            if sets_up {
                mode = std::hint::black_box(set_up());
            }
            if seals {
                tag = mode.encrypt_inout_detached(&number(i), &DATA, text.as_mut_slice().into()).expect("a seal");
            }
            if opens {
                text.copy_from_slice(&sealed);
                mode.decrypt_inout_detached(&number(1), &DATA, text.as_mut_slice().into(), &tag).expect("an open");
            }
        }
        let took = now() - began;
        if only_set_up {
            tag = mode.encrypt_inout_detached(&number(1), &DATA, text.as_mut_slice().into()).expect("a seal");
        }
        println!("{took} {:016x}", digest(text.iter().chain(tag.iter()).copied()));
    }
}

fn main() {
    match std::env::args().nth(1).as_deref() {
        None | Some("16") => serve::<Mode<Aes128>>(),
        Some("24") => serve::<Mode<Aes192>>(),
        Some("32") => serve::<Mode<Aes256>>(),
        Some(other) => panic!("a key length of 16, 24 or 32, not {other}"),
    }
}
