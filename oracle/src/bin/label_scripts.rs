//! Writes the stored scripts of labels: `label_scripts OUTDIR` writes `OUTDIR/label_scripts/stdin`
//! and `stdout`, and prints how each kind of record was answered.

use std::collections::BTreeMap;
use std::path::Path;
use std::process::exit;
use std::{env, fs};

use oracle::document::No;
use oracle::scripts::{Player, Record, rule};

fn main() {
    let args: Vec<String> = env::args().skip(1).collect();
    let [outdir] = args.as_slice() else {
        eprintln!("usage: label_scripts OUTDIR");
        exit(1);
    };
    if let Err(why) = write(&Path::new(outdir).join("label_scripts")) {
        eprintln!("label_scripts: {outdir}: {why}");
        exit(1);
    }
}

fn write(folder: &Path) -> std::io::Result<()> {
    let (records, cut) = rule::stored();
    let mut player = Player::default();
    let (mut stdin, mut stdout) = (vec![], String::new());
    let mut answers: BTreeMap<(u64, Option<u32>), u64> = BTreeMap::new();
    for record in &records {
        let (said, text) = player.play(record);
        let refusal = said.and_then(|said| said.err()).map(|No(number)| number);
        let kind = if said.is_some() { record.kind } else { u64::MAX };
        *answers.entry((kind, refusal)).or_default() += 1;
        stdin.extend(record.bytes());
        stdout.push_str(&text);
    }
    stdin.extend(cut);
    fs::create_dir_all(folder)?;
    fs::write(folder.join("stdin"), &stdin)?;
    fs::write(folder.join("stdout"), &stdout)?;
    report(&records, &answers, stdin.len());
    Ok(())
}

fn report(records: &[Record], answers: &BTreeMap<(u64, Option<u32>), u64>, bytes: usize) {
    const NAMES: [&str; 5] = ["anew", "put", "bind", "use", "finish"];
    for ((kind, refusal), count) in answers {
        let name = NAMES.get(*kind as usize).copied().unwrap_or("no kind");
        match refusal {
            None => println!("{name}: {count}"),
            Some(number) => println!("{name} refused {number}: {count}"),
        }
    }
    println!("{} records, {bytes} bytes", records.len());
}
