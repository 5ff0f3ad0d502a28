//! Answers each frame of a file, a line each, as tests/test_library.py asks for it. A frame is two numbers
//! of 64 bits, h and v, then h bytes of header, then v values.

use std::{env, fs};
use tensor::{evaluate_joined, Header};

/// The next so many bytes.
fn taken<'b>(bytes: &mut &'b [u8], count: usize) -> &'b [u8] {
    let (first, rest) = bytes.split_at(count);
    *bytes = rest;
    first
}

fn number(bytes: &mut &[u8]) -> u64 {
    u64::from_le_bytes(taken(bytes, 8).try_into().expect("eight bytes"))
}

fn main() {
    let path = env::args().nth(1).expect("a file of frames");
    let all = fs::read(path).expect("the file can be read");
    let mut bytes = all.as_slice();
    while !bytes.is_empty() {
        let (header, count) = (number(&mut bytes) as usize, number(&mut bytes));
        let text = String::from_utf8(taken(&mut bytes, header).to_vec()).expect("UTF-8");
        let values: Vec<i64> = (0..count).map(|_| number(&mut bytes) as i64).collect();
        match evaluate_joined(&Header { text }, &values) {
            Ok(it) => println!(r#"{{"data":{:?},"dims":{:?}}}"#, it.values, it.dims),
            Err(fault) => println!("error {fault}"),
        }
    }
}
