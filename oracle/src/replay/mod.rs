//! The replay's requests and answers, and the comparing of the Rust with document 01.
//!
//! A request is nine little-endian numbers of 64 bits: the entry's, then eight arguments, the
//! unused ones 0; an entry that writes has the base address of its run behind all others. A number
//! that an entry takes as one of 32 bits counts modulo 2^32. A run's length counts modulo 9 in
//! words and modulo 33 in bytes; word i of it is A5000000 + i before the call, byte i is 80 + i
//! (hex).
//!
//! An answer is one line, `ok` with decimal numbers or `no` with the refusal's number; a value of 64
//! bits is two hexadecimal words, the high one first. An entry that writes answers its new position,
//! without the base address, then the whole run in lines of up to four hexadecimal words.

pub mod answer;
pub mod by_document;
pub mod by_rust;
pub mod classes;
pub mod departures;
pub mod request;

use answer::Answer;
use by_rust::Heard;
use classes::Class;
use request::Request;

/// How a request came out: the Rust's answer where it is document 01's, else document 01's and why.
pub enum Settled {
    Same(Answer),
    Differs(Class, Answer),
}

/// Asks both. A difference that fits no class is an error that names the request.
pub fn settle(r: &Request) -> Result<Settled, String> {
    let document = by_document::answer(r);
    let rust = by_rust::heard(r);
    match rust {
        Heard::Says(answer) if answer == document => Ok(Settled::Same(answer)),
        rust => match classes::class(r, &document, &rust) {
            Some(class) => Ok(Settled::Differs(class, document)),
            None => Err(format!("no class for {r}: document 01 {document:x?}, the Rust {rust:x?}")),
        },
    }
}
