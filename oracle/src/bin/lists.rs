//! Writes the replay's lists: `lists OUTDIR 1 2` for modules 1 and 2.
//!
//! `OUTDIR/replay` has the requests at which the Rust answers as document 01, with the Rust's
//! answers; `OUTDIR/differences` has all others, with document 01's.

use std::collections::{BTreeMap, HashSet};
use std::path::Path;
use std::process::exit;
use std::{env, fs, io};

use oracle::lists::LISTS;
use oracle::replay::classes::Class;
use oracle::replay::request::Request;
use oracle::replay::{Settled, settle};

/// One pair of files to be.
#[derive(Default)]
struct Pair {
    stdin: Vec<u8>,
    stdout: String,
}

impl Pair {
    fn add(&mut self, request: &Request, text: &str) {
        self.stdin.extend(request.bytes());
        self.stdout.push_str(text);
    }

    fn write(&self, folder: &Path) -> io::Result<()> {
        fs::create_dir_all(folder)?;
        fs::write(folder.join("stdin"), &self.stdin)?;
        fs::write(folder.join("stdout"), &self.stdout)
    }
}

#[derive(Default)]
struct Made {
    asked: HashSet<Request>,
    replay: Pair,
    differences: Pair,
    same: BTreeMap<u64, usize>,
    classes: BTreeMap<Class, usize>,
}

impl Made {
    /// Asks a request, unless it has come before.
    fn add(&mut self, request: &Request) -> Result<(), String> {
        if !self.asked.insert(*request) {
            return Ok(());
        }
        match settle(request)? {
            Settled::Same(answer) => {
                self.replay.add(request, &answer.text());
                *self.same.entry(request.entry).or_default() += 1;
            }
            Settled::Differs(class, answer) => {
                self.differences.add(request, &answer.text());
                *self.classes.entry(class).or_default() += 1;
            }
        }
        Ok(())
    }
}

fn main() {
    if let Err(why) = run() {
        eprintln!("lists: {why}");
        exit(1);
    }
}

fn run() -> Result<(), String> {
    let args: Vec<String> = env::args().skip(1).collect();
    let Some((outdir, modules @ [_, ..])) = args.split_first() else {
        return Err("usage: lists OUTDIR MODULE..".into());
    };
    let mut made = Made::default();
    for module in modules {
        let chosen: Vec<_> =
            LISTS.iter().filter(|list| list.number.to_string() == *module).collect();
        if chosen.is_empty() {
            return Err(format!("no list is named {module}"));
        }
        for request in chosen.iter().flat_map(|list| (list.requests)()) {
            made.add(&request)?;
        }
    }
    write(&made, Path::new(outdir)).map_err(|why| format!("{outdir}: {why}"))?;
    report(&made);
    Ok(())
}

fn write(made: &Made, outdir: &Path) -> io::Result<()> {
    made.replay.write(&outdir.join("replay"))?;
    made.differences.write(&outdir.join("differences"))
}

fn report(made: &Made) {
    for (entry, count) in &made.same {
        println!("entry {entry}: {count} equal");
    }
    for (class, count) in &made.classes {
        println!("{class:?}: {count}");
    }
    let [same, other] =
        [&made.replay, &made.differences].map(|pair| pair.stdin.len() / Request::BYTES);
    println!("{same} equal, {other} different");
}
