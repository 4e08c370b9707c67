//! Puts the error pages of three tenants into one spill file, shows its rows and bodies, reads one page back, and asks for it as another tenant. The
//! same as examples/spill.c.
use rukensaz::{Error, Ocb3, Spill, TAG_SIZE};
use std::fmt::Write;

const PAGES: [(u32, &str); 3] = [
    (7, "503 Service Unavailable"),
    (8, "502 Bad Gateway"),
    (9, "504 Gateway Timeout"),
];

fn hex(bytes: &[u8]) -> String {
    bytes.iter().fold(String::new(), |mut text, byte| {
        let _ = write!(text, "{byte:02x}");
        text
    })
}

fn show(spill: &Spill) {
    let (file, rows) = (spill.as_bytes(), spill.rows());
    println!("the file has {} rows and {} bytes", rows.len(), file.len());
    let (table, mut bodies) = file.split_at(4 + 24 * rows.len());
    for (place, (row, bytes)) in rows.zip(table[4..].chunks_exact(24)).enumerate() {
        let (body, others) = bodies.split_at(row.length + TAG_SIZE);
        println!("row {place}: {} bytes of text for tenant {}", row.length, row.tenant);
        println!("  row  {}\n  body {}", hex(bytes), hex(body));
        bodies = others;
    }
}

fn read_as(tenant: u32, cipher: &Ocb3, spill: &Spill, row: usize) -> Result<(), Error> {
    match spill.read(cipher, row, tenant, &mut [0; 100]) {
        Ok((text, calls)) => {
            println!("row {row} read as tenant {tenant}: done, {calls} cipher calls");
            println!("  text {}", String::from_utf8_lossy(text));
        }
        Err(error @ Error::OtherTenant) => {
            println!("row {row} read as tenant {tenant}: refused with {} ({error})", error.number());
        }
        Err(error) => return Err(error),
    }
    Ok(())
}

fn main() -> Result<(), Error> {
    let cipher = Ocb3::new(&[0, 1, 2, 3, 4, 5, 6, 7, 8, 9, 10, 11, 12, 13, 14, 15]);
    let mut buffer = [0; 1000];
    let mut spill = Spill::new(&mut buffer)?;
    for (place, (tenant, page)) in (1..).zip(PAGES) {
        let nonce = [0, 0, 0, 0, 0, 0, 0, 0, 0, 0, 0, place]; // a new one for each page under the key
        let calls = spill.add(&cipher, &nonce, tenant, page.as_bytes())?;
        println!("added {} bytes for tenant {tenant}, {calls} cipher calls", page.len());
    }
    show(&spill);
    read_as(8, &cipher, &spill, 1)?;
    read_as(7, &cipher, &spill, 1)
}
