//! The function under test, and the program.
use crate::lent::{Lending, Lent};
use std::io::Write;
use std::process::{Command, Stdio};
use std::time::Duration;

unsafe extern "C" {
    // each slice is two arguments, where it begins and its length
    fn weigh_text(text: *const u8, text_length: usize, out: *mut u8, out_length: usize) -> usize;
}

const FILL: u8 = 0x5A;

/// Runs a text with so many places for the answer. What is wrong, in words.
pub fn differs(text: &[u8], right: &[u8], places: usize, how: Lending) -> Option<String> {
    let lent = Lent::of(text, how);
    let mut out = Lent::of(&vec![FILL; places], how);
    // SAFETY: both pairs are slices that live through the call, the one written to is not shared
    let length = unsafe { weigh_text(lent.items().as_ptr(), lent.len(), out.pointer_to_write(), out.len()) };
    if length != right.len() {
        return Some(format!("length {length}, expected {}", right.len()));
    }
    if !lent.is_still(text) {
        return Some("the text has changed, or what is round it".to_string());
    }
    if !out.guards_stand() {
        return Some("written to beside the answer's places".to_string());
    }
    // an answer that does not fit leaves the places as they were
    let written = if length <= places { length } else { 0 };
    let (found, rest) = out.items().split_at(written);
    if found != &right[..written] {
        return Some(format!("with {places} places {:?}", String::from_utf8_lossy(found)));
    }
    if rest.iter().any(|&byte| byte != FILL) {
        return Some(format!("with {places} places, written behind the answer"));
    }
    None
}

/// Runs the program on a text: from standard input, in so many pieces, to standard output.
pub fn program_differs(program: &str, text: &[u8], right: &[u8], pieces: usize) -> Option<String> {
    let mut child =
        Command::new(program).stdin(Stdio::piped()).stdout(Stdio::piped()).spawn().expect("the program runs");
    let mut input = child.stdin.take().expect("its input");
    for piece in text.chunks(text.len().div_ceil(pieces).max(1)) {
        // the program need not read a text that is too long to its end
        let _ = input.write_all(piece);
        // so that it reads what is there, and has to read again
        if pieces > 1 {
            std::thread::sleep(Duration::from_millis(2));
        }
    }
    drop(input);
    let output = child.wait_with_output().expect("its output");
    if output.status.code().is_none() {
        return Some(format!("the program ended with {}", output.status));
    }
    if output.stdout != right {
        return Some(format!("the program prints {:?}", String::from_utf8_lossy(&output.stdout)));
    }
    None
}
