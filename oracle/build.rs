//! Finds asmkit's source, checks that its text is the recorded one, and writes the module tree
//! that compiles it unchanged.

use std::fmt::Write;
use std::path::{Path, PathBuf};
use std::{env, fs};

/// Where the source is looked for, from this package's folder on, when ASMKIT_SRC is not set.
const DEFAULT_SRC: &str = "../../shared/docs/src";

/// The files of `src/aarch64` that are compiled, each with its SHA-256.
const AARCH64: [(&str, &str); 5] = [
    ("arch_traits", "43ca8c41fe16320acfb3a12a9ea240cf7fcd165e84d1423dc4ded539b4783c8e"),
    ("assembler", "1884e759df35fb4329db34c6a3e756521bb3aaf28c5976da9c1f46c3326855f8"),
    ("encoder", "0bbb0f27002c4d7d845188e62a92c7144f0931e3edef70d2e1d0f2acfc84520f"),
    ("encoder_tables", "5819ce889bd3a94f4beda2f6e61ea76220fa4e44e77707ede4498690d847bad7"),
    ("operands", "9caf9c8373db3dd303e7c2ec88df8bc59efc18150245a4abece3d2b635f42a33"),
];

/// The files of `src/core` that are compiled, each with its SHA-256.
const CORE: [(&str, &str); 7] = [
    ("arch_traits", "83b475363a8e96c1653216afdf3c47981a1ac983e682abb456064ffde2b4d0dc"),
    ("builder", "801b11a85c3655537656e0af041b0bcb8264eabae7f90f5bea98f4904bb2a890"),
    ("globals", "624ade7946b4284c487c744e4cfa599edbd38fd042848dd7bd75842885c0dade"),
    ("inst", "a4387e7ed03c05861917201c10a1f27d091ec5065101927e6e2baeec8cd4fa4c"),
    ("operand", "1b40f276f2f71b4d7f771d6fede5d1d94d08d22c2b92fc26715b5f7fe739795b"),
    ("patch", "d71bf10de43e8c57e4e7408834f8584c0ca5997411a6fec059a2181be62d7ba9"),
    ("types", "6f51440eadae58e81f488b0b08e1b20cafb294271ef4269bcce916bc8f6e171e"),
];

/// What the original's `aarch64/mod.rs` and `core/mod.rs` bring into scope, as far as it is used.
const AARCH64_SCOPE: &str = "pub(crate) use crate::standins::{emit, instdb};
    pub(crate) use self::{assembler::*, operands::*};";
const CORE_SCOPE: &str = "pub(crate) use crate::standins::{buffer, relax, support, target};";

fn main() {
    println!("cargo::rerun-if-env-changed=ASMKIT_SRC");
    println!("cargo::rustc-cfg=feature=\"aarch64\"");
    println!(
        "cargo::rustc-check-cfg=cfg(feature, values(\"aarch64\", \"jit\", \"riscv\", \"x86\"))"
    );
    let root = env::var_os("ASMKIT_SRC").map_or(PathBuf::from(DEFAULT_SRC), PathBuf::from);
    match tree(&root) {
        Ok(text) => {
            let out = PathBuf::from(env::var_os("OUT_DIR").expect("cargo sets OUT_DIR"));
            fs::write(out.join("original.rs"), text).expect("OUT_DIR can be written");
        }
        Err(why) => println!("cargo::error={why}"),
    }
}

/// The text of the module tree, or why there is none.
fn tree(root: &Path) -> Result<String, String> {
    let Ok(src) = root.join("src").canonicalize() else {
        return Err(format!("oracle: no asmkit source at {}: set ASMKIT_SRC", root.display()));
    };
    let aarch64 = modules(&src.join("aarch64"), &AARCH64)?;
    let core = modules(&src.join("core"), &CORE)?;
    Ok(format!(
        "pub(crate) mod aarch64 {{\n{aarch64}    {AARCH64_SCOPE}\n}}\n\
         pub(crate) mod core {{\n{core}    {CORE_SCOPE}\n}}\n"
    ))
}

/// A `mod` line for each file of a folder, once its text is found to be the recorded one.
fn modules(folder: &Path, files: &[(&str, &str)]) -> Result<String, String> {
    let mut lines = String::new();
    for (name, recorded) in files {
        let path = folder.join(format!("{name}.rs"));
        println!("cargo::rerun-if-changed={}", path.display());
        let text = fs::read(&path)
            .map_err(|why| format!("oracle: cannot read {}: {why}", path.display()))?;
        if sha256(&text) != *recorded {
            return Err(format!(
                "oracle: {} is not the recorded text (its SHA-256 differs): refused",
                path.display()
            ));
        }
        writeln!(
            lines,
            "    #[allow(warnings, clippy::all)]\n    #[path = {path:?}]\n    pub(crate) mod {name};"
        )
        .expect("a string can be written");
    }
    Ok(lines)
}

/// The first 32 bits after the point of a prime's square root, or of its cube root.
fn root_bits(prime: u64, cube: bool) -> u32 {
    let fits = |r: u128| match cube {
        false => r * r <= u128::from(prime) << 64,
        true => r * r * r <= u128::from(prime) << 96,
    };
    let mut r: u128 = 0;
    for bit in (0..40).rev() {
        if fits(r | 1 << bit) {
            r |= 1 << bit;
        }
    }
    r as u32
}

/// The first 64 primes, from which SHA-256 takes its constants.
fn primes() -> Vec<u64> {
    (2..312).filter(|n| (2..*n).all(|d| n % d != 0)).collect()
}

/// The SHA-256 of a text, as 64 hexadecimal digits (FIPS 180-4).
fn sha256(text: &[u8]) -> String {
    let keys: Vec<u32> = primes().iter().map(|p| root_bits(*p, true)).collect();
    let mut hash: Vec<u32> = primes()[..8].iter().map(|p| root_bits(*p, false)).collect();
    let mut padded = text.to_vec();
    padded.push(0x80);
    while padded.len() % 64 != 56 {
        padded.push(0);
    }
    padded.extend((text.len() as u64 * 8).to_be_bytes());
    for block in padded.chunks_exact(64) {
        compress(&mut hash, block, &keys);
    }
    hash.iter().map(|word| format!("{word:08x}")).collect()
}

/// One block of 64 bytes taken into the hash.
fn compress(hash: &mut [u32], block: &[u8], keys: &[u32]) {
    let mut w: Vec<u32> =
        block.chunks_exact(4).map(|b| u32::from_be_bytes([b[0], b[1], b[2], b[3]])).collect();
    for t in 16..64 {
        let (x, y) = (w[t - 15], w[t - 2]);
        let s0 = x.rotate_right(7) ^ x.rotate_right(18) ^ (x >> 3);
        let s1 = y.rotate_right(17) ^ y.rotate_right(19) ^ (y >> 10);
        w.push(s1.wrapping_add(w[t - 7]).wrapping_add(s0).wrapping_add(w[t - 16]));
    }
    let mut v = hash.to_vec();
    for t in 0..64 {
        let (a, e) = (v[0], v[4]);
        let s0 = a.rotate_right(2) ^ a.rotate_right(13) ^ a.rotate_right(22);
        let s1 = e.rotate_right(6) ^ e.rotate_right(11) ^ e.rotate_right(25);
        let majority = (a & v[1]) ^ (a & v[2]) ^ (v[1] & v[2]);
        let choice = (e & v[5]) ^ (!e & v[6]);
        let t1 = [s1, choice, keys[t], w[t]].iter().fold(v[7], |sum, x| sum.wrapping_add(*x));
        v.rotate_right(1);
        v[4] = v[4].wrapping_add(t1);
        v[0] = t1.wrapping_add(s0).wrapping_add(majority);
    }
    for (old, new) in hash.iter_mut().zip(v) {
        *old = old.wrapping_add(new);
    }
}
