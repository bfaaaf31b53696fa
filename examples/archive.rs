//! An archived overlay, of which only the words are left, to the constants that it loads. It prints every item with its position, and
//! how many words `mov` would take for a constant.

use std::error::Error;

use vaimalofo::{mov, read, rewrite, words, Address, Item, Place, Read};

/// The overlay: raw words, low byte first.
const OVERLAY: [u8; 44] = [
    0x80, 0x46, 0x82, 0xD2, // movz x0, #0x1234
    0x00, 0xCF, 0xAA, 0xF2, // movk x0, #0x5678, lsl #16
    0x00, 0x00, 0xC0, 0xF2, // movk x0, #0, lsl #32
    0x01, 0x00, 0x80, 0x12, // movn w1, #0
    0x21, 0x14, 0x40, 0x92, // and x1, x1, #0x3f
    0x42, 0xF0, 0x05, 0xB2, // orr x2, x2, #0xaaaaaaaaaaaaaaaa, spelled with R 5
    0xE3, 0xFF, 0xFF, 0x54, // b.cc back
    0x04, 0x00, 0x00, 0x58, // ldr x4 from itself
    0x85, 0x46, 0xA2, 0xF2, // movk x5, #0x1234, lsl #16
    0x1F, 0x20, 0x03, 0xD5, // nop
    0xC0, 0x03, 0x5F, 0xD6, // ret
];

fn main() -> Result<(), Box<dyn Error>> {
    let words: Vec<u32> = words(&OVERLAY).collect();
    for Read { position, words: count, item } in read(&words) {
        print!("{:3}  ", position.0);
        match item {
            Item::Constant { register, width, value } => {
                let short = mov(&mut [0; 16], Place::at(Address(0)), value, register)?.position.0;
                let bits = width.bits();
                print!("constant {value:016x} in register {}, {bits} bits", register.number());
                println!("; words: {count}, could be {short}");
            }
            Item::Movk { register, halfword, place, .. } => {
                println!(
                    "MOVK {halfword:04x} to halfword {place} of register {}",
                    register.number()
                );
            }
            Item::Logical { operation, value, fields, normal, .. } => {
                print!("{operation:?} with {value:016x}, repeats every {} bits", fields.length);
                let again = rewrite(words[position.0]);
                println!("{}", if normal { "".into() } else { format!(", normally {again:08x}") });
            }
            Item::Displacement { format, base, distance } => {
                println!("{base:08x} of {format}, by {} bytes", distance.0);
            }
            Item::Unknown { word } => println!("unknown {word:08x}"),
            _ => println!("an item of a later version"),
        }
    }
    Ok(())
}
