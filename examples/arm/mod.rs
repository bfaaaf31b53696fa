//! Runs A64 words and reads a register after them: on this machine where it is an Arm one with Linux, else under qemu-aarch64. No
//! compiler is needed: the program is an ELF file of one segment, written here.

use std::error::Error;
use std::fs::{self, File};
use std::io::{self, Write};
use std::path::Path;
use std::process::{self, Command, Output};

use vaimalofo::{mov, patchable_mov, words, Address, Place, Reg, Width};

/// What is said where [`run`] answers nothing.
pub const NOT_RUN: &str =
    "not run: there is no qemu-aarch64 on the PATH, and this is no Arm machine with Linux";

/// Where the file is loaded, and how long its two headers are, behind which the code begins.
const LOADED: u64 = 0x400000;
const HEADERS: u64 = 64 + 56;

/// What the register holds after the words, which find the old content in it. Nothing where no machine is there to run them.
pub fn run(code: &[u32], register: Reg, old: u64) -> Result<Option<u64>, Box<dyn Error>> {
    let file = elf(&program(code, register, old)?);
    let path = std::env::temp_dir().join(format!("vaimalofo-example-{}", process::id()));
    let mut made = create(&path)?;
    let filled = made.write_all(&file);
    // A file that is open to be written is not run.
    drop(made);
    let outcome = filled.and_then(|()| start(&path));
    fs::remove_file(&path)?;
    match outcome? {
        Some(output) if output.status.success() => {
            Ok(Some(u64::from_le_bytes(output.stdout.as_slice().try_into()?)))
        }
        Some(output) => {
            Err(format!("{}: {}", output.status, String::from_utf8_lossy(&output.stderr)).into())
        }
        None => Ok(None),
    }
}

/// The whole program: the old content, the words, and then the register written to standard output.
fn program(code: &[u32], register: Reg, old: u64) -> Result<Vec<u32>, vaimalofo::Error> {
    let store = 0xF81F0FE0 | register.number(); // STR Xn, [SP, #-16]!
    let mut program = set(old, register)?;
    program.extend(code);
    program.extend([store, 0x910003E1]); // ADD X1, SP, #0
    system_call(&mut program, 64, [(Reg::X0, 1), (Reg::X2, 8)])?; // write 8 bytes to 1
    system_call(&mut program, 93, [(Reg::X0, 0)])?; // exit with 0
    Ok(program)
}

/// The words that put a value in a register: four, whatever the value is.
fn set(value: u64, register: Reg) -> Result<Vec<u32>, vaimalofo::Error> {
    let mut bytes = [0; 16];
    patchable_mov(&mut bytes, Place::at(Address(0)), value, Width::W64, register)?;
    Ok(words(&bytes).collect())
}

/// A system call of Linux by its number, with these arguments.
fn system_call<const N: usize>(
    program: &mut Vec<u32>,
    number: u64,
    arguments: [(Reg, u64); N],
) -> Result<(), vaimalofo::Error> {
    for (register, value) in arguments.into_iter().chain([(Reg::X8, number)]) {
        let mut bytes = [0; 16];
        let end = mov(&mut bytes, Place::at(Address(0)), value, register)?;
        program.extend(words(&bytes).take(end.position.0));
    }
    program.push(0xD4000001); // SVC #0
    Ok(())
}

/// An executable file for Arm: the headers of the file and of its one segment, which is all of it, and the code.
fn elf(code: &[u32]) -> Vec<u8> {
    let mut file = b"\x7FELF\x02\x01\x01\0\0\0\0\0\0\0\0\0".to_vec();
    let length = HEADERS + 4 * code.len() as u64;
    let (short, long) = (|n: u16| n.to_le_bytes().to_vec(), |n: u32| n.to_le_bytes().to_vec());
    let wide = |n: u64| n.to_le_bytes().to_vec();
    // An executable, for AArch64, of version 1; where it starts; the segment's header, no section's; no flags.
    file.extend([short(2), short(183), long(1), wide(LOADED + HEADERS)].concat());
    file.extend([wide(64), wide(0), long(0)].concat());
    // The lengths of the two headers, of which there is one; no sections.
    file.extend([64, 56, 1, 0, 0, 0].map(short).concat());
    // A segment to load, to be read and run: from the file's start, to its address, all of it, in the largest pages.
    file.extend([long(1), long(5)].concat());
    file.extend([0, LOADED, LOADED, length, length, 0x10000].map(wide).concat());
    file.extend(code.iter().flat_map(|word| word.to_le_bytes()));
    file
}

/// A file that is new and may be run.
fn create(path: &Path) -> io::Result<File> {
    let mut options = File::options();
    #[cfg(unix)]
    std::os::unix::fs::OpenOptionsExt::mode(&mut options, 0o700);
    options.write(true).create_new(true).open(path)
}

/// Runs the file, where something can: this machine, or else QEMU.
fn start(path: &Path) -> io::Result<Option<Output>> {
    if cfg!(all(target_os = "linux", target_arch = "aarch64")) {
        if let Ok(output) = Command::new(path).output() {
            return Ok(Some(output));
        }
    }
    match Command::new("qemu-aarch64").arg(path).output() {
        Err(why) if why.kind() == io::ErrorKind::NotFound => Ok(None),
        outcome => outcome.map(Some),
    }
}
