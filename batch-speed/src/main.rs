//! The batch program of document 01 in plain Rust: the same rules, the standard library alone. It is what the proved program's time is
//! compared with, and a second reader of its input.
use std::io::{self, BufReader, BufWriter, Read, Write};

use batch_plain::{logical_fields, move_words};

/// What a record's line says.
enum Line {
    Words([u32; 4], usize),
    Fields([u32; 4]),
    Float(u8),
    No(u8),
}

fn mov(value: u64, register: u8) -> Line {
    if register > 30 {
        return Line::No(2);
    }
    let (words, count) = move_words(value, register.into());
    Line::Words(words, count)
}

fn fields(value: u64, width: u32) -> Line {
    match logical_fields(value, width) {
        Some(fields) => Line::Fields(fields),
        None => Line::No(3),
    }
}

fn float(value: u64) -> Line {
    let exponent = value >> 54 & 0x1FF;
    if value << 16 != 0 || exponent != 0x100 && exponent != 0x0FF {
        return Line::No(3);
    }
    Line::Float((value >> 56 & 0x80) as u8 | (value >> 48 & 0x7F) as u8)
}

fn line(kind: u8, register: u8, value: u64) -> Line {
    match kind {
        1 => mov(value, register),
        2 => fields(value, 64),
        3 => fields(value, 32),
        4 => float(value),
        _ => Line::No(7),
    }
}

fn print(out: &mut impl Write, line: Line) -> io::Result<()> {
    match line {
        Line::Words(words, n) => {
            out.write_all(b"ok")?;
            for w in &words[..n] {
                write!(out, " {w:08x}")?;
            }
            out.write_all(b"\n")
        }
        Line::Fields([n, s, r, length]) => writeln!(out, "ok {n} {s} {r} {length}"),
        Line::Float(b) => writeln!(out, "ok {b}"),
        Line::No(n) => writeln!(out, "no {n}"),
    }
}

/// Fills the record, or answers how many bytes the input still had.
fn next(input: &mut impl Read, record: &mut [u8; 12]) -> io::Result<usize> {
    let mut n = 0;
    while n < 12 {
        match input.read(&mut record[n..])? {
            0 => break,
            k => n += k,
        }
    }
    Ok(n)
}

fn main() -> io::Result<()> {
    let mut input = BufReader::with_capacity(65536, io::stdin().lock());
    let mut out = BufWriter::with_capacity(65536, io::stdout().lock());
    let mut record = [0; 12];
    let mut offset: u64 = 0;
    loop {
        match next(&mut input, &mut record)? {
            0 => break,
            12 => {}
            _ => {
                writeln!(out, "cut at {offset}")?;
                break;
            }
        }
        let [m0, m1, kind, register, value @ ..] = record;
        if [m0, m1] != [0x46, 0x53] {
            writeln!(out, "bad mark at {offset}")?;
            break;
        }
        print(&mut out, line(kind, register, u64::from_le_bytes(value)))?;
        offset = offset.wrapping_add(12);
    }
    out.flush()
}
