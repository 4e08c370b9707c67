//! The test program's form of a case: a table of 22 bytes (0 seal or 1 open; m; five little-endian lengths of key, nonce, data, text and tag), then the
//! five bodies in that order.

/// No body of a case of the test program may be longer.
pub const LONGEST: usize = 8192;

pub struct Case {
    pub open: bool,
    pub m: u8,
    pub key: Vec<u8>,
    pub nonce: Vec<u8>,
    pub data: Vec<u8>,
    pub text: Vec<u8>,
    pub tag: Vec<u8>,
}

impl Case {
    /// `None` is the test program's `bad case`, with bodies of at most `longest` bytes.
    pub fn read(bytes: &[u8], longest: usize) -> Option<Case> {
        let (table, mut rest) = bytes.split_at_checked(22)?;
        if table[0] > 1 {
            return None;
        }
        let mut bodies = [const { Vec::new() }; 5];
        for (body, length) in bodies.iter_mut().zip(table[2..].chunks_exact(4)) {
            let length = u32::from_le_bytes(length.try_into().ok()?) as usize;
            if length > longest {
                return None;
            }
            let (these, others) = rest.split_at_checked(length)?;
            *body = these.to_vec();
            rest = others;
        }
        let [key, nonce, data, text, tag] = bodies;
        rest.is_empty().then_some(Case { open: table[0] == 1, m: table[1], key, nonce, data, text, tag })
    }
}
