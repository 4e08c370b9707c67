//! Spill files through the linked library: a file as OpenSSL has it, three tenants, each refusal and what it leaves, and files of any bytes.
use rukensaz::{Error, Ocb3, Row, Spill};

const KEY: [u8; 16] = [0, 1, 2, 3, 4, 5, 6, 7, 8, 9, 10, 11, 12, 13, 14, 15];

/// A file of two rows under the key above: for tenant 7 the text 00 01 .. 20 under `nonce(0)`, for `HIGH` no text under `nonce(1)`. The bodies are
/// OpenSSL 3.0.19's (`EVP_aes_128_ocb`), and a script in Python laid the file out.
const TWO_ROWS: [&str; 5] = [
    "02000000",
    "bbaa99887766554433221100070000003400000031000000",
    "bbaa99887766554433221101070000806500000010000000",
    "a992214ede48f2c33f8be7f7e985df7ec9e68ef0ff189fa7ba920d679bae9c33fbd074ca59f144530700e256f44eb1794d",
    "d02c4ac5d03a787edf7dd3ffb5fa15ba",
];
/// A tenant that would be 7 if its number were cut to 31 bits.
const HIGH: u32 = 0x8000_0007;
/// Where the file has the first row's nonce, its tenant and its body.
const FIRST_NONCE: usize = 4;
const FIRST_TENANT: usize = 16;
const FIRST_BODY: usize = 52;

fn nonce(place: u8) -> [u8; 12] {
    [0xbb, 0xaa, 0x99, 0x88, 0x77, 0x66, 0x55, 0x44, 0x33, 0x22, 0x11, place]
}

fn counting(length: usize) -> Vec<u8> {
    (0u8..).take(length).collect()
}

fn two_rows() -> Vec<u8> {
    let hex = TWO_ROWS.concat();
    let places = (0..hex.len()).step_by(2);
    places
        .map(|place| u8::from_str_radix(&hex[place..place + 2], 16).unwrap())
        .collect()
}

/// The rows of these bytes, if they are a file.
fn rows(bytes: &[u8]) -> Result<Vec<Row>, Error> {
    let mut buffer = bytes.to_vec();
    Spill::from_file(&mut buffer, bytes.len()).map(|spill| spill.rows().collect())
}

#[test]
fn a_file_as_openssl_has_it() {
    let (cipher, file) = (Ocb3::new(&KEY), two_rows());
    let mut buffer = [5; 130];
    let mut spill = Spill::new(&mut buffer).unwrap();
    assert_eq!((spill.as_bytes(), spill.rows().len()), (&[0; 4][..], 0));
    assert_eq!(spill.add(&cipher, &nonce(0), 7, &counting(33)), Ok(6));
    assert_eq!(spill.add(&cipher, &nonce(1), HIGH, b""), Ok(3));
    assert_eq!(spill.as_bytes(), file);
    assert_eq!(buffer[file.len()..], [5; 13]);

    assert_eq!(
        rows(&file),
        Ok(vec![Row { tenant: 7, length: 33 }, Row { tenant: HIGH, length: 0 }])
    );
    let mut buffer = file.clone();
    let spill = Spill::from_file(&mut buffer, file.len()).unwrap();
    let mut out = [5; 40];
    assert_eq!(spill.read(&cipher, 0, 7, &mut out), Ok((&counting(33)[..], 6)));
    assert_eq!(out[33..], [5; 7]);
    assert_eq!(spill.read(&cipher, 1, HIGH, &mut []), Ok((&[][..], 3)));
    assert_eq!(spill.as_bytes(), file);
}

/// Two tenants share a key and one has its own; the file goes to a longer buffer between two additions.
#[test]
fn three_tenants() {
    let (shared, own) = (Ocb3::new(&KEY), Ocb3::new(&[9; 32]));
    let pages = [
        (7, &shared, counting(100)),
        (8, &shared, counting(0)),
        (9, &own, counting(16)),
    ];
    let reads = |spill: &Spill| {
        for (row, (tenant, cipher, page)) in pages.iter().enumerate().take(spill.rows().len()) {
            let mut out = [5; 100];
            assert_eq!(
                spill.read(cipher, row, *tenant, &mut out).map(|(text, _)| text),
                Ok(&page[..])
            );
            for other in [0, 7, 8, 9, tenant | 1 << 31].into_iter().filter(|other| other != tenant) {
                assert_eq!(spill.read(cipher, row, other, &mut out), Err(Error::OtherTenant));
            }
        }
    };

    let mut buffer = [5; 4 + 2 * 40 + 100];
    let mut spill = Spill::new(&mut buffer).unwrap();
    for (place, (tenant, cipher, page)) in (0..).zip(&pages[..2]) {
        spill.add(cipher, &nonce(place), *tenant, page).unwrap();
        reads(&spill);
    }
    assert_eq!(spill.add(&own, &nonce(2), 9, &pages[2].2), Err(Error::FileFull));

    let mut longer = [5; 300];
    longer[..buffer.len()].copy_from_slice(&buffer);
    let mut spill = Spill::from_file(&mut longer, buffer.len()).unwrap();
    spill.add(&own, &nonce(2), 9, &pages[2].2).unwrap();
    assert!(spill.rows().eq(pages.iter().map(|(tenant, _, page)| Row {
        tenant: *tenant,
        length: page.len()
    })));
    reads(&spill);
    let mut out = [5; 20];
    assert_eq!(spill.read(&shared, 2, 9, &mut out), Err(Error::TagDiffers { calls: 4 }));
    assert_eq!(out, [[0; 16].as_slice(), &[5; 4]].concat()[..]);
}

/// In their order: each row has everything wrong that is tested later, but for the tag.
#[test]
fn refused_readings_leave_the_output() {
    let small = Ocb3::with_places(&KEY, 1).unwrap();
    let mut buffer = two_rows();
    let length = buffer.len();
    let spill = Spill::from_file(&mut buffer, length).unwrap();
    for (row, tenant, size, wanted) in [
        (2, HIGH, 32, Error::NoRow),
        (1 << 32, HIGH, 32, Error::NoRow),
        (usize::MAX, HIGH, 32, Error::NoRow),
        (0, HIGH, 32, Error::OtherTenant),
        (0, 7, 32, Error::OutputSize),
        (0, 7, 33, Error::TextSize),
    ] {
        let mut out = vec![5; size];
        assert_eq!(spill.read(&small, row, tenant, &mut out), Err(wanted));
        assert_eq!(out, vec![5; size]);
    }
}

/// A changed bit of the first row's nonce, of its tenant, of its body: it opens no more, and the second row reads as before.
#[test]
fn what_was_changed_leaves_zeros() {
    let cipher = Ocb3::new(&KEY);
    let nonce_and_tenant = FIRST_NONCE..FIRST_TENANT + 4;
    for at in nonce_and_tenant.chain(FIRST_BODY..FIRST_BODY + 33 + 16) {
        let mut buffer = two_rows();
        let length = buffer.len();
        buffer[at] ^= 1;
        let spill = Spill::from_file(&mut buffer, length).unwrap();
        let tenant = spill.rows().next().unwrap().tenant;
        let mut out = [5; 40];
        assert_eq!(
            spill.read(&cipher, 0, tenant, &mut out),
            Err(Error::TagDiffers { calls: 6 }),
            "{at}"
        );
        assert_eq!((&out[..33], &out[33..]), (&[0; 33][..], &[5; 7][..]), "{at}");
        assert_eq!(spill.read(&cipher, 1, HIGH, &mut out), Ok((&[][..], 3)), "{at}");
    }
}

/// In their order, as above. `room` is the buffer's length past that of the file with the text added.
#[test]
fn refused_additions_change_nothing() {
    let small = Ocb3::with_places(&KEY, 1).unwrap();
    for (tenant, place, room, wanted) in [
        (0, 0, -1, Error::TenantZero),
        (9, 0, -1, Error::NonceUsed),
        (9, 1, -1, Error::NonceUsed),
        (9, 2, -1, Error::FileFull),
        (9, 2, 0, Error::TextSize),
    ] {
        let file = two_rows();
        let mut buffer = file.clone();
        buffer.resize((file.len() + 40 + 33).checked_add_signed(room).unwrap(), 5);
        let before = buffer.clone();
        let mut spill = Spill::from_file(&mut buffer, file.len()).unwrap();
        assert_eq!(spill.add(&small, &nonce(place), tenant, &counting(33)), Err(wanted));
        assert_eq!(spill.as_bytes(), file);
        assert_eq!(buffer, before);
    }
}

#[test]
fn a_buffer_shorter_than_an_empty_file() {
    for length in 0..4 {
        let mut buffer = vec![5; length];
        assert_eq!(Spill::new(&mut buffer).unwrap_err(), Error::FileSize);
        assert_eq!(buffer, vec![5; length]);
    }
}

#[test]
fn the_most_rows_and_the_most_bytes() {
    let cipher = Ocb3::new(&KEY);
    let mut buffer = vec![0; 70_000];
    let mut spill = Spill::new(&mut buffer).unwrap();
    for place in 0..=255 {
        assert_eq!(spill.add(&cipher, &nonce(place), 7, b""), Ok(3));
    }
    assert_eq!(spill.rows().len(), Spill::MOST_ROWS);
    assert_eq!(spill.add(&cipher, &[0; 12], 7, b""), Err(Error::FileFull));
    assert_eq!(spill.read(&cipher, 255, 7, &mut []), Ok((&[][..], 3)));

    let text = vec![3; Spill::MOST_BYTES - 44];
    let mut spill = Spill::new(&mut buffer).unwrap();
    assert_eq!(
        spill.add(&cipher, &nonce(0), 7, &vec![3; text.len() + 1]),
        Err(Error::FileFull)
    );
    let calls = text.len().div_ceil(16) + 3;
    assert_eq!(spill.add(&cipher, &nonce(0), 7, &text), Ok(calls));
    assert_eq!(spill.as_bytes().len(), Spill::MOST_BYTES);
    assert_eq!(spill.add(&cipher, &nonce(1), 7, b""), Err(Error::FileFull));
    let mut out = vec![5; text.len()];
    assert!(spill.read(&cipher, 0, 7, &mut out) == Ok((&text[..], calls)));
}

/// A file of rows with these tenants, places and lengths of bodies, and so many bytes behind the table.
fn file(rows: &[(u32, u32, u32)], bodies: usize) -> Vec<u8> {
    let mut bytes = u32::try_from(rows.len()).unwrap().to_le_bytes().to_vec();
    for (tenant, place, length) in rows {
        bytes.extend([3; 12]);
        bytes.extend([tenant, place, length].map(|number| number.to_le_bytes()).concat());
    }
    bytes.resize(bytes.len() + bodies, 3);
    bytes
}

/// A file of so many rows, each with no text.
fn without_texts(count: u32) -> Vec<u8> {
    let rows: Vec<_> = (0..count).map(|row| (7, 4 + 24 * count + 16 * row, 16)).collect();
    file(&rows, 16 * rows.len())
}

#[test]
fn sizes_of_a_file() {
    let all = |count| Ok(vec![Row { tenant: 7, length: 0 }; count]);
    assert_eq!((rows(&without_texts(0)), rows(&without_texts(256))), (all(0), all(256)));
    assert_eq!(rows(&without_texts(257)), Err(Error::FileSize));
    let longest = Row {
        tenant: 7,
        length: 65_492,
    };
    assert_eq!(rows(&file(&[(7, 28, 65_508)], 65_508)), Ok(vec![longest]));
    assert_eq!(rows(&file(&[(7, 28, 65_509)], 65_509)), Err(Error::FileSize));
    for length in 0..4 {
        assert_eq!(rows(&vec![0; length]), Err(Error::FileSize));
    }
    // the rows of the last count but one would take 2^32 + 8 bytes
    for count in [1, 256, 257, 0x0aaa_aaab, u32::MAX] {
        let mut bytes = count.to_le_bytes().to_vec();
        bytes.resize(27, 0);
        assert_eq!(rows(&bytes), Err(Error::FileSize), "{count}");
        assert_eq!(rows(&bytes[..12]), Err(Error::FileSize), "{count}");
    }
    for length in [5, 1 << 32, (1 << 32) + 4, usize::MAX] {
        assert_eq!(
            Spill::from_file(&mut [0; 4], length).unwrap_err(),
            Error::FileSize,
            "{length}"
        );
    }
}

#[test]
fn rows_that_no_file_has() {
    let (first, second) = ((7, 52, 16), (8, 68, 20));
    let good = [Row { tenant: 7, length: 0 }, Row { tenant: 8, length: 4 }];
    assert_eq!(rows(&file(&[first, second], 36)), Ok(good.to_vec()));
    for bad in [
        [(0, 52, 16), second],
        [first, (0, 68, 20)],
        [(7, 51, 16), second],
        [(7, 53, 16), second],
        [first, (8, 67, 20)],
        [first, (8, 69, 20)],
        [first, (8, 52, 20)],
        [first, (8, 0, 20)],
        [first, (8, u32::MAX, 20)],
        [(7, 68, 20), (8, 52, 16)],
        [(7, 52, 0), (8, 52, 36)],
        [(7, 52, 15), (8, 67, 21)],
        [first, (8, 68, 0)],
        [first, (8, 68, 15)],
        [first, (8, 68, 21)],
        [(7, 52, 37), (8, 89, 16)],
        [first, (8, 68, u32::MAX)],
        [first, (8, 68, u32::MAX - 67)],       // the body would end at 2^32
        [(7, 52, u32::MAX - 15), (8, 36, 52)], // the second body at 2^32 + 36
    ] {
        assert_eq!(rows(&file(&bad, 36)), Err(Error::BadRow), "{bad:?}");
    }
    assert_eq!(rows(&file(&[first, second], 37)), Err(Error::TrailingBytes));
    assert_eq!(rows(&file(&[], 1)), Err(Error::TrailingBytes));
    assert_eq!(rows(&file(&[first, (0, 68, 20)], 37)), Err(Error::BadRow));
}

/// Each byte of the table in turn is given every other value. Nonces and tenants may be any, but tenant 0; every other number has one right value.
#[test]
fn a_table_with_one_byte_changed() {
    let whole = file(&[(0x0101_0107, 76, 21), (0x0101_0108, 97, 16), (0x0101_0109, 113, 16)], 53);
    let rows_of_whole = rows(&whole).unwrap();
    for at in 0..76 {
        for change in 1..=255 {
            let mut bytes = whole.clone();
            bytes[at] ^= change;
            let given = rows(&bytes);
            if at >= 4 && (at - 4) % 24 < 16 {
                let lengths = |rows: &[Row]| rows.iter().map(|row| row.length).collect::<Vec<_>>();
                assert_eq!(lengths(&given.unwrap()), lengths(&rows_of_whole), "{at} {change}");
            } else {
                assert!(given.is_err(), "{at} {change}");
            }
        }
    }
}

#[test]
fn the_limits_are_those_of_the_header() {
    let header = include_str!("../../../include/ocb.h");
    assert!(header.contains(&format!("#define SPILL_MOST_ROWS {}\n", Spill::MOST_ROWS)));
    assert!(header.contains(&format!("#define SPILL_MOST_BYTES {}\n", Spill::MOST_BYTES)));
}
