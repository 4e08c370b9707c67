//! RFC 7253, appendix A: its samples, which are over AES-128, sixteen with a tag of 16 bytes and one with a tag of 12; those of the size that m = 1
//! just admits; and its test over a wider range of sizes, over AES-128, AES-192 and AES-256.
use rukensaz::{Ocb3, TAG_SIZE};

/// Bytes of associated data and of plaintext, which count up from 0; ciphertext with the tag behind it. The sample's place in the list is
/// the last byte of its nonce.
const SAMPLES: [(usize, usize, &str); 16] = [
    (0, 0, "785407bfffc8ad9edcc5520ac9111ee6"),
    (8, 8, "6820b3657b6f615a5725bda0d3b4eb3a257c9af1f8f03009"),
    (8, 0, "81017f8203f081277152fade694a0a00"),
    (0, 8, "45dd69f8f5aae72414054cd1f35d82760b2cd00d2f99bfa9"),
    (16, 16, "571d535b60b277188be5147170a9a22c3ad7a4ff3835b8c5701c1ccec8fc3358"),
    (16, 0, "8cf761b6902ef764462ad86498ca6b97"),
    (0, 16, "5ce88ec2e0692706a915c00aeb8b2396f40e1c743f52436bdf06d8fa1eca343d"),
    (
        24,
        24,
        "1ca2207308c87c010756104d8840ce1952f09673a448a122c92c62241051f57356d7f3c90bb0e07f",
    ),
    (24, 0, "6dc225a071fc1b9f7c69f93b0f1e10de"),
    (
        0,
        24,
        "221bd0de7fa6fe993eccd769460a0af2d6cded0c395b1c3ce725f32494b9f914d85c0b1eb38357ff",
    ),
    (
        32,
        32,
        "bd6f6c496201c69296c11efd138a467abd3c707924b964deaffc40319af5a48540fbba186c5553c68ad9f592a79a4240",
    ),
    (32, 0, "fe80690bee8a485d11f32965bc9d2a32"),
    (
        0,
        32,
        "2942bfc773bda23cabc6acfd9bfd5835bd300f0973792ef46040c53f1432bcdfb5e1dde3bc18a5f840b52e653444d5df",
    ),
    (
        40,
        40,
        "d5ca91748410c1751ff8a2f618255b68a0a12e093ff454606e59f9c1d0ddc54b65e8628e568bad7aed07ba06a4a69483a7035490c5769e60",
    ),
    (40, 0, "c5cd9d1850c141e358649994ee701b68"),
    (
        0,
        40,
        "4412923493c57d5de0d700f753cce0d1d2d95060122e9f15a5ddbfc5787e50b5cc55ee507bcb084e479ad363ac366b95a98ca5f3000b1479",
    ),
];
const NONCE: [u8; 12] = [0xbb, 0xaa, 0x99, 0x88, 0x77, 0x66, 0x55, 0x44, 0x33, 0x22, 0x11, 0x00];

fn counting(length: usize) -> Vec<u8> {
    (0u8..).take(length).collect()
}

fn bytes(hex: &str) -> Vec<u8> {
    let places = (0..hex.len()).step_by(2);
    places
        .map(|place| u8::from_str_radix(&hex[place..place + 2], 16).unwrap())
        .collect()
}

/// Seals and opens what the sample at this place has, which has to give the ciphertext with the tag behind it.
fn gives(cipher: &Ocb3, place: u8, wanted: &str) {
    let (data, text, _) = SAMPLES[usize::from(place)];
    let (data, plain) = (counting(data), counting(text));
    let mut nonce = NONCE;
    nonce[11] = place;
    let mut buffer = plain.clone();
    let tag: [u8; TAG_SIZE] = cipher.encrypt_in_place_detached(&nonce, &data, &mut buffer).unwrap();
    assert_eq!([&buffer[..], &tag[..]].concat(), bytes(wanted), "sample {place}");
    cipher.decrypt_in_place_detached(&nonce, &data, &mut buffer, &tag).unwrap();
    assert_eq!(buffer, plain, "sample {place}");
}

#[test]
fn full_tags() {
    let cipher = Ocb3::new_from_slice(&counting(16)).unwrap();
    for (place, (_, _, published)) in (0..).zip(SAMPLES) {
        gives(&cipher, place, published);
    }
}

/// 32 bytes of text and of data, of text, and of data: samples 10 to 12. RFC 7253 has none of longer keys: what sample 10 gives with them is OpenSSL
/// 3.0.19's (`EVP_aes_192_ocb`, `EVP_aes_256_ocb`).
#[test]
fn all_that_m_1_admits() {
    let with_key = |length| Ocb3::with_places(&counting(length), 1).unwrap();
    for place in 10..13 {
        gives(&with_key(16), place, SAMPLES[usize::from(place)].2);
    }
    gives(
        &with_key(24),
        10,
        "c0769f8fc8999ef3fc2ab7fdb229489889e734c52c361a7983e9eb2f8eaec1ef3524d8015d30310307e8b6b4411f4e45",
    );
    gives(
        &with_key(32),
        10,
        "65628dc88905c930d3b0e043b544385852cfdc155d87ffd15044fc0e63cf9edbfd1f26227e45c02fb0e31b80f7890f0a",
    );
}

#[test]
fn tag_of_twelve_bytes() {
    let key: Vec<u8> = (0..16).rev().collect();
    let cipher = Ocb3::new_from_slice(&key).unwrap();
    let mut nonce = NONCE;
    nonce[11] = 0x0d;
    let (data, mut buffer, mut tag) = (counting(40), counting(40), [0; 12]);
    assert_eq!(cipher.seal_in_place_detached(&nonce, &data, &mut buffer, &mut tag), Ok(8));
    assert_eq!(
        [&buffer[..], &tag[..]].concat(),
        bytes("1792a4e31e0755fb03e31b22116e6c2ddf9efd6e33d536f1a0124b0a55bae884ed93481529c76b6ad0c515f4d1cdd4fdac4f02aa")
    );
    assert_eq!(cipher.open_in_place_detached(&nonce, &data, &mut buffer, &tag), Ok(8));
    assert_eq!(buffer, counting(40));
}

/// The test over a wider range of sizes: the tag of no text and, as data, of all that seals of up to 127 zeros gave. Each seal is opened too.
fn wider_range<const KEY_SIZE: usize>(tag_size: u8) -> Vec<u8> {
    let mut key = [0; KEY_SIZE];
    key[KEY_SIZE - 1] = 8 * tag_size;
    let cipher = Ocb3::new(&key);
    let mut number = 0u32;
    let mut sealed = |data: &[u8], text: &[u8]| {
        number += 1;
        let mut nonce = [0; 12];
        nonce[8..].copy_from_slice(&number.to_be_bytes());
        let (mut buffer, mut tag) = (text.to_vec(), vec![0; tag_size.into()]);
        cipher.seal_in_place_detached(&nonce, data, &mut buffer, &mut tag).unwrap();
        let given = [&buffer[..], &tag[..]].concat();
        cipher.open_in_place_detached(&nonce, data, &mut buffer, &tag).unwrap();
        assert_eq!(buffer, text);
        given
    };
    let mut all = Vec::new();
    for length in 0..128 {
        let zeros = vec![0; length];
        all.extend(sealed(&zeros, &zeros));
        all.extend(sealed(b"", &zeros));
        all.extend(sealed(&zeros, b""));
    }
    sealed(&all, b"")
}

#[test]
fn three_key_lengths() {
    assert_eq!(wider_range::<16>(16), bytes("67e944d23256c5e0b6c61fa22fdf1ea2"));
    assert_eq!(wider_range::<24>(16), bytes("f673f2c3e7174aae7bae986ca9f29e17"));
    assert_eq!(wider_range::<32>(16), bytes("d90eb8e9c977c88b79dd793d7ffa161c"));
    assert_eq!(wider_range::<16>(12), bytes("77a3d8e73589158d25d01209"));
    assert_eq!(wider_range::<24>(12), bytes("05d56ead2752c86be6932c5e"));
    assert_eq!(wider_range::<32>(12), bytes("5458359ac23b0cba9e6330dd"));
    assert_eq!(wider_range::<16>(8), bytes("192c9b7bd90ba06a"));
    assert_eq!(wider_range::<24>(8), bytes("0066bc6e0ef34e24"));
    assert_eq!(wider_range::<32>(8), bytes("7d4ea5d445501cbe"));
}
