//! A loop with labels: the steps that Collatz's rule takes from 27 to 1. It is left by a branch forward, halves by another one, and goes
//! back by a third; none of the words knows its distance before all labels are bound. It prints the words before and after, and runs them
//! where QEMU or an Arm machine is there.

mod arm;

use std::error::Error;

use vaimalofo::{
    bytes, logical_word, mov, Address, Format, Label, Labels, Logical, LogicalOp, Place, Reg, Use,
    Uses, Width, WordPos,
};

const SUBS_XZR_X1_1: u32 = 0xF100043F;
const B_EQ: u32 = 0x54000000;
const CBZ_X2: u32 = 0xB4000002;
const ADD_X1_X1_X1_LSL_1: u32 = 0x8B010421;
const ADD_X1_X1_1: u32 = 0x91000421;
const B: u32 = 0x14000000;
const LSR_X1_X1_1: u32 = 0xD341FC21;
const ADD_X0_X0_1: u32 = 0x91000400;
const NOP: u32 = 0xD503201F;

const NEXT: Label = Label(0);
const EVEN: Label = Label(1);
const COUNT: Label = Label(2);
const EXIT: Label = Label(3);

/// What the words are, in their order.
const TEXT: [&str; 13] = [
    "       mov  x0, #0",
    "       mov  x1, #27",
    "next:  cmp  x1, #1",
    "       b.eq exit",
    "       and  x2, x1, #1",
    "       cbz  x2, even",
    "       add  x1, x1, x1, lsl #1",
    "       add  x1, x1, #1",
    "       b    count",
    "even:  lsr  x1, x1, #1",
    "count: add  x0, x0, #1",
    "       b    next",
    "exit:  nop",
];

fn main() -> Result<(), Box<dyn Error>> {
    let (mut code, base) = ([0; TEXT.len()], Address(0x1000));
    let (mut table, mut sheet) = ([0; 4], [Use::default(); 4]);
    let (mut labels, mut uses) = (Labels::new(&mut table), Uses::new(&mut sheet));
    write(&mut code, Place::at(base), &mut labels, &mut uses)?;
    let before = code;
    println!("{} words wait for a label", uses.len());
    uses.finish(&labels, &mut code, base)?;
    for (position, ((before, after), text)) in before.iter().zip(code).zip(TEXT).enumerate() {
        let at = Place { base, position: WordPos(position) };
        let changed = if *before == after { "        ".into() } else { format!("{before:08x}") };
        println!("{:x}  {changed}  {after:08x}  {text}", at.address().0);
    }
    match arm::run(&code, Reg::X0, 0xDEAD)? {
        Some(111) => println!("run: x0 is 111, the steps from 27 to 1"),
        Some(other) => return Err(format!("run: x0 is {other}, and 111 was expected").into()),
        None => println!("{}", arm::NOT_RUN),
    }
    Ok(())
}

/// Writes the loop, binds its labels where they come and says which words wait for one.
fn write(
    code: &mut [u32],
    start: Place,
    labels: &mut Labels,
    uses: &mut Uses,
) -> Result<(), vaimalofo::Error> {
    let low_bit =
        Logical { operation: LogicalOp::And, width: Width::W64, rn: Reg::X1, rd: Reg::X2 };
    let at = mov(bytes(code), start, 0, Reg::X0)?;
    let next = mov(bytes(code), at, 27, Reg::X1)?;
    labels.bind(code, NEXT, next)?;
    let b_eq = put(code, next, SUBS_XZR_X1_1);
    let at = put(code, b_eq, B_EQ);
    uses.add(labels, code, EXIT, b_eq, Format::Branch19)?;
    let cbz = logical_word(bytes(code), at, low_bit, 1)?;
    let at = put(code, cbz, CBZ_X2);
    uses.add(labels, code, EVEN, cbz, Format::Branch19)?;
    let at = put(code, at, ADD_X1_X1_X1_LSL_1);
    let b = put(code, at, ADD_X1_X1_1);
    let even = put(code, b, B);
    uses.add(labels, code, COUNT, b, Format::Branch26)?;
    labels.bind(code, EVEN, even)?;
    let count = put(code, even, LSR_X1_X1_1);
    labels.bind(code, COUNT, count)?;
    let back = put(code, count, ADD_X0_X0_1);
    let exit = put(code, back, B);
    uses.add(labels, code, NEXT, back, Format::Branch26)?;
    labels.bind(code, EXIT, exit)?;
    put(code, exit, NOP);
    Ok(())
}

/// Puts a word of one's own in the run, and answers the next place.
fn put(code: &mut [u32], at: Place, word: u32) -> Place {
    let WordPos(position) = at.position;
    code[position] = word;
    Place { position: WordPos(position + 1), ..at }
}
