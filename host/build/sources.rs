//! The files that the library is made from, as the command `library` names them.

use crate::sha256;
use std::collections::HashMap;
use std::fs;
use std::path::Path;

/// All but the crates, and the list of these.
const USED: &str = "KIT LICENSE NOTICE gate/kit gate/module gate/needed gate/own gate/prove gate/room host/include/vaimalofo.h library targets/compile \
                    targets/portable.awk";
const LIST: &str = "crates.txt";

/// The files, and the folders whose files all count, by their names below the package's folder.
pub fn paths(top: &Path) -> Result<Vec<String>, String> {
    let mut paths: Vec<String> = USED.split_whitespace().map(String::from).collect();
    for name in crates(&read(&top.join(LIST))?) {
        let parts = ["src", "specs", "proofs"].map(|part| format!("crates/{name}/{part}"));
        paths.extend(parts.into_iter().filter(|part| top.join(part).is_dir()));
    }
    Ok(paths)
}

/// Whether all crates are there that the list names, as they are in a checkout, and not in a package.
pub fn is_whole(top: &Path) -> bool {
    let list = read(&top.join(LIST)).unwrap_or_default();
    list.lines().filter_map(name).all(|name| top.join(format!("crates/{name}/src")).is_dir())
}

/// One sum of all of them: that of the lines `SUM  NAME`, sorted. Of the list of crates the lines of those count.
pub fn sum(top: &Path) -> Result<String, String> {
    let list = read(&top.join(LIST))?;
    let needed = crates(&list);
    let counts =
        |line: &&str| name(line).is_some_and(|name| needed.iter().any(|need| need == name));
    let listed: String = list.lines().filter(counts).flat_map(|line| [line, "\n"]).collect();
    let mut lines = vec![format!("{}  {LIST}\n", sha256::hex(listed.as_bytes()))];
    for path in paths(top)? {
        add(top, path, &mut lines)?;
    }
    lines.sort();
    Ok(sha256::hex(lines.concat().as_bytes()))
}

fn add(top: &Path, path: String, lines: &mut Vec<String>) -> Result<(), String> {
    let why = |why: std::io::Error| format!("{path}: {why}");
    let here = top.join(&path);
    let kind = fs::symlink_metadata(&here).map_err(why)?;
    if kind.is_file() {
        lines.push(format!("{}  {path}\n", sha256::hex(&fs::read(here).map_err(why)?)));
    } else if kind.is_dir() {
        for entry in fs::read_dir(here).map_err(why)? {
            let name = entry.map_err(why)?.file_name();
            add(top, format!("{path}/{}", name.to_string_lossy()), lines)?;
        }
    }
    Ok(())
}

/// The crate that a line of the list is of.
fn name(line: &str) -> Option<&str> {
    line.split([' ', ':', '#']).next().filter(|name| !name.is_empty())
}

/// The static libraries, which export the C entries, and all that they need.
fn crates(list: &str) -> Vec<String> {
    let lines = list.lines().filter_map(|line| line.split('#').next()?.split_once(':'));
    let lines: Vec<(&str, &str)> = lines.map(|(of, needs)| (of.trim(), needs)).collect();
    let bare = |of: &'_ str| of.split(' ').next().unwrap_or_default().to_owned();
    let needs: HashMap<String, &str> = lines.iter().map(|(of, needs)| (bare(of), *needs)).collect();
    let exports = lines.iter().filter(|(of, _)| of.ends_with(" staticlib"));
    let mut found: Vec<String> = exports.map(|(of, _)| bare(of)).collect();
    let mut next = 0;
    while let Some(name) = found.get(next) {
        for need in needs[name].split_whitespace() {
            if needs.contains_key(need) && !found.iter().any(|name| name == need) {
                found.push(need.into());
            }
        }
        next += 1;
    }
    found.sort_unstable();
    found
}

pub fn read(file: &Path) -> Result<String, String> {
    fs::read_to_string(file).map_err(|why| format!("{}: {why}", file.display()))
}
