//! What began this: asmkit's words for a move of all ones, and of values up to FFFFFFFF that it spells by MOVN, beside the words from
//! here. Both are run where QEMU or an Arm machine is there, and the register is shown.

mod arm;

use std::error::Error;

use vaimalofo::{mov, words, Address, Place, Reg};

/// What the register holds before.
const OLD: u64 = 0x0123456789ABCDEF;

/// A value, a register, and the words that asmkit's `encode_mov_sequence64` gives for them. All ones: none. Up to FFFFFFFF: a MOVN of
/// the 64-bit register, which leaves ones in bits 32 to 63.
const MOVES: [(u64, Reg, &[u32]); 3] = [
    (0xFFFFFFFFFFFFFFFF, Reg::X3, &[]),
    (0xFFFFFFFE, Reg::X1, &[0x92800021]),
    (0x1FFFF, Reg::X0, &[0x92BFFFC0]),
];

fn main() -> Result<(), Box<dyn Error>> {
    let mut ran = false;
    for (value, register, theirs) in MOVES {
        println!("move {value:016x} to x{}, which held {OLD:016x}", register.number());
        let mut code = [0; 16];
        let end = mov(&mut code, Place::at(Address(0)), value, register)?;
        let ours: Vec<u32> = words(&code).take(end.position.0).collect();
        show("asmkit", theirs, register, value)?;
        let left = show("here", &ours, register, value)?;
        ran |= left.is_some();
        if left.is_some_and(|left| left != value) {
            return Err("a move from here has left another value".into());
        }
    }
    if !ran {
        println!("{}", arm::NOT_RUN);
    }
    Ok(())
}

/// Prints the words, and what they leave in the register where they can be run.
fn show(
    whose: &str,
    code: &[u32],
    register: Reg,
    value: u64,
) -> Result<Option<u64>, Box<dyn Error>> {
    let spelled: Vec<String> = code.iter().map(|word| format!("{word:08x}")).collect();
    let spelled = if code.is_empty() { "no word".to_string() } else { spelled.join(" ") };
    let left = arm::run(code, register, OLD)?;
    let said = match left {
        Some(left) if left == value => format!(", run: {left:016x}"),
        Some(left) => format!(", run: {left:016x}, wrong"),
        None => String::new(),
    };
    println!("  {whose:<6}  {spelled}{said}");
    Ok(left)
}
