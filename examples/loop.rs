//! A loop with a move, a mask and two branches: the sum of the even numbers up to ten. It prints the words with their addresses, and
//! runs them where QEMU or an Arm machine is there.

mod arm;

use std::error::Error;

use vaimalofo::{
    displacement, displacement_to, logical_word, mov, retarget_to, words, Address, ByteDistance,
    Format, Logical, LogicalOp, Place, Reg, Width, WordPos,
};

const CBNZ_X1: u32 = 0xB5000001;
const CBNZ_X2: u32 = 0xB5000002;
const ADD_X0_X0_X1: u32 = 0x8B010000;
const SUB_X1_X1_1: u32 = 0xD1000421;

/// What the words are, in their order.
const TEXT: [&str; 7] = [
    "      mov  x0, #0",
    "      mov  x1, #10",
    "next: and  x2, x1, #1",
    "      cbnz x2, odd",
    "      add  x0, x0, x1",
    "odd:  sub  x1, x1, #1",
    "      cbnz x1, next",
];

fn main() -> Result<(), Box<dyn Error>> {
    let mut code = [0; 28];
    let start = Place::at(Address(0x1000));
    write(&mut code, start)?;
    for ((position, word), text) in words(&code).enumerate().zip(TEXT) {
        let at = Place { position: WordPos(position), ..start };
        println!("{:x}  {word:08x}  {text}", at.address().0);
    }
    let all: Vec<u32> = words(&code).collect();
    match arm::run(&all, Reg::X0, 0xDEAD)? {
        Some(30) => println!("run: x0 is 30, as 2 + 4 + 6 + 8 + 10 is"),
        Some(other) => return Err(format!("run: x0 is {other}, and 30 was expected").into()),
        None => println!("{}", arm::NOT_RUN),
    }
    Ok(())
}

/// Writes the loop. Where the forward branch goes is not known when it is written, so it is given its target later.
fn write(code: &mut [u8], start: Place) -> Result<(), vaimalofo::Error> {
    let low_bit =
        Logical { operation: LogicalOp::And, width: Width::W64, rn: Reg::X1, rd: Reg::X2 };
    let at = mov(code, start, 0, Reg::X0)?;
    let next = mov(code, at, 10, Reg::X1)?;
    let forward = logical_word(code, next, low_bit, 1)?;
    let at = displacement(code, forward, Format::Branch19, CBNZ_X2, ByteDistance(0))?;
    let odd = put(code, at, ADD_X0_X0_X1);
    let at = put(code, odd, SUB_X1_X1_1);
    displacement_to(code, at, Format::Branch19, CBNZ_X1, next.address())?;
    retarget_to(code, forward, Format::Branch19, odd.address())?;
    Ok(())
}

/// Puts a word of one's own in the run, and answers the next place.
fn put(code: &mut [u8], at: Place, word: u32) -> Place {
    let WordPos(position) = at.position;
    code[4 * position..][..4].copy_from_slice(&word.to_le_bytes());
    Place { position: WordPos(position + 1), ..at }
}
