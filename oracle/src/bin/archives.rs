//! Writes the stored archives: `archives OUTDIR` writes `stdin` and `stdout` into `OUTDIR/archive`,
//! `OUTDIR/archive_joined` and `OUTDIR/archive_empty`, and prints how many lines each has.

use std::path::Path;
use std::process::exit;
use std::{env, fs, io};

use oracle::archives::{rule, text};

fn main() {
    let args: Vec<String> = env::args().skip(1).collect();
    let [outdir] = args.as_slice() else {
        eprintln!("usage: archives OUTDIR");
        exit(1);
    };
    let all = [
        ("archive", rule::stored()),
        ("archive_joined", rule::joined()),
        ("archive_empty", vec![]),
    ];
    for (name, input) in all {
        if let Err(why) = write(&Path::new(outdir).join(name), &input) {
            eprintln!("archives: {outdir}: {why}");
            exit(1);
        }
    }
}

fn write(folder: &Path, input: &[u8]) -> io::Result<()> {
    let text = text(input);
    fs::create_dir_all(folder)?;
    fs::write(folder.join("stdin"), input)?;
    fs::write(folder.join("stdout"), &text)?;
    println!("{}: {} bytes, {} lines", folder.display(), input.len(), text.lines().count());
    Ok(())
}
