//! Puts a stream of cases to the crate ocb3. Standard input: for each case its length (four bytes, little-endian) and its bytes. Standard output: for each
//! case an answer in the same frame. An answer is what the test program would write, with one of these as the first line:
//!
//! | line | when |
//! |---|---|
//! | `answer 0 calls N` | the crate did it |
//! | `answer 7 calls N` | its open worked and then gave its error: the tag differs |
//! | `error calls 0` | it gave its error before any cipher call: a length |
//! | `panic calls N` | it panicked after N calls |
//! | `error key` | its set-up refuses the key's length |
//! | `none nonce`, `none tag`, `none m` | it has no such instance |
//!
//! Text and tag follow as the crate left them, or the whole answer is `bad case`. With the argument `--wide` a body may have any length.

mod case;
mod instances;

use std::cell::Cell;
use std::io::{self, ErrorKind, Read, Write};

use case::{Case, LONGEST};
use instances::{Counting, Outcome, instance};

/// The answer's first line. Text and tag of the case become what the crate leaves.
fn first_line(case: &mut Case) -> String {
    let calls = Cell::new(0);
    let Some(cipher) = Counting::new(&case.key, &calls) else {
        return "error key".into();
    };
    let ask = match instance(case) {
        Ok(ask) => ask,
        Err(size) => return format!("none {size}"),
    };
    let outcome = ask(cipher, case);
    let word = match outcome {
        Outcome::Done => "answer 0",
        Outcome::Refused if calls.get() == 0 => "error",
        Outcome::Refused => "answer 7",
        Outcome::Panicked => "panic",
    };
    format!("{word} calls {}", calls.get())
}

fn hex(bytes: &[u8], out: &mut String) {
    for byte in bytes {
        for digit in [byte >> 4, byte & 15] {
            out.push(b"0123456789abcdef"[digit as usize] as char);
        }
    }
    out.push('\n');
}

fn answer(bytes: &[u8], longest: usize) -> String {
    let Some(mut case) = Case::read(bytes, longest) else {
        return "bad case\n".into();
    };
    let mut out = first_line(&mut case);
    out.push('\n');
    hex(&case.text, &mut out);
    hex(&case.tag, &mut out);
    out
}

/// The next case, or `None` where the input ends between two cases.
fn next_case(input: &mut impl Read) -> io::Result<Option<Vec<u8>>> {
    let mut length = [0; 4];
    let first = input.read(&mut length)?;
    if first == 0 {
        return Ok(None);
    }
    input.read_exact(&mut length[first..])?;
    let mut bytes = vec![0; u32::from_le_bytes(length) as usize];
    input.read_exact(&mut bytes)?;
    Ok(Some(bytes))
}

fn run() -> io::Result<()> {
    let longest = if std::env::args().any(|word| word == "--wide") { usize::MAX } else { LONGEST };
    let mut input = io::stdin().lock();
    let mut output = io::BufWriter::new(io::stdout().lock());
    while let Some(bytes) = next_case(&mut input)? {
        let answer = answer(&bytes, longest);
        output.write_all(&(answer.len() as u32).to_le_bytes())?;
        output.write_all(answer.as_bytes())?;
    }
    output.flush()
}

fn main() {
    // a panic of the crate is an answer, not a message
    std::panic::set_hook(Box::new(|_| ()));
    if let Err(error) = run() {
        match error.kind() {
            ErrorKind::UnexpectedEof => eprintln!("crate-driver: the input ends inside a case"),
            _ => eprintln!("crate-driver: {error}"),
        }
        std::process::exit(1);
    }
}
