//! Seals an error page for one tenant, tries to open it as another, and opens it as the right one; then for a tenant with a longer key. The same
//! as examples/tenants.c.
use rukensaz::{Error, Ocb3};
use std::fmt::Write;

const NONCE: [u8; 12] = [0, 0, 0, 0, 0, 0, 0, 0, 0, 0, 0, 1]; // used once under each key
const PAGE: [u8; 23] = *b"503 Service Unavailable";

fn hex(bytes: &[u8]) -> String {
    bytes.iter().fold(String::new(), |mut text, byte| {
        let _ = write!(text, "{byte:02x}");
        text
    })
}

/// Seals the page, with the tenant's number as associated data.
fn seal_for(tenant: u32, cipher: &Ocb3) -> Result<([u8; 23], [u8; 16]), Error> {
    let (mut text, mut tag) = (PAGE, [0; 16]);
    let calls = cipher.seal_in_place_detached(&NONCE, &tenant.to_le_bytes(), &mut text, &mut tag)?;
    println!("sealed {} bytes for tenant {tenant}, {calls} cipher calls", text.len());
    println!("  text {}\n  tag  {}", hex(&text), hex(&tag));
    Ok((text, tag))
}

/// Opens a sealed page, with the tenant's number as associated data.
fn open_as(tenant: u32, cipher: &Ocb3, (mut text, tag): ([u8; 23], [u8; 16])) -> Result<(), Error> {
    match cipher.open_in_place_detached(&NONCE, &tenant.to_le_bytes(), &mut text, &tag) {
        Ok(calls) => {
            println!("opened as tenant {tenant}: done, {calls} cipher calls");
            println!("  text {}", String::from_utf8_lossy(&text));
        }
        Err(error @ Error::TagDiffers { calls }) => {
            let number = error.number();
            println!("opened as tenant {tenant}: refused with {number} ({error}), {calls} cipher calls");
            println!("  text {}", hex(&text));
        }
        Err(error) => return Err(error),
    }
    Ok(())
}

fn main() -> Result<(), Error> {
    let shared_key = [0, 1, 2, 3, 4, 5, 6, 7, 8, 9, 10, 11, 12, 13, 14, 15];
    let own_key = [
        0, 1, 2, 3, 4, 5, 6, 7, 8, 9, 10, 11, 12, 13, 14, 15, 16, 17, 18, 19, 20, 21, 22, 23, 24, 25, 26, 27, 28, 29, 30, 31,
    ];
    println!("tenants 7 and 8 share a key of 16 bytes, tenant 9 has one of 32");
    let (shared, own) = (Ocb3::new(&shared_key), Ocb3::new(&own_key));

    let page = seal_for(7, &shared)?;
    open_as(8, &shared, page)?;
    open_as(7, &shared, page)?;

    let page = seal_for(9, &own)?;
    open_as(9, &own, page)
}
