//! A library that the command `library` has written elsewhere.

use crate::{sha256, sources};
use std::fs;
use std::path::Path;

/// Whether it is the one that would be made here: of the same kit, logic and sources, for the target, and as it was written.
pub fn compare(top: &Path, target: &str, folder: &Path) -> Result<(), String> {
    if !folder.is_absolute() {
        return Err("the name of the folder must begin at the root".into());
    }
    let identity = sources::read(&folder.join("identity.txt"))?;
    let kit = sources::read(&top.join("KIT"))?;
    let (name, logic) =
        kit.trim_end().split_once(" logic ").ok_or("the file KIT names no logic")?;
    same(&identity, "kit", name)?;
    same(&identity, "logic", logic)?;
    same(&identity, "target", target)?;
    same(&identity, "sources", &sources::sum(top)?)?;
    let archive = if target.ends_with("-msvc") { "vaimalofo.lib" } else { "libvaimalofo.a" };
    let bytes = fs::read(folder.join(archive)).map_err(|why| format!("{archive}: {why}"))?;
    let sum = format!("{}  {archive}", sha256::hex(&bytes));
    let listed = identity.lines().filter_map(|line| line.strip_prefix("sha256: "));
    match listed.into_iter().find(|line| line.ends_with(archive)) {
        Some(listed) if listed == sum => Ok(()),
        Some(listed) => Err(format!(
            "the archive is not the one that identity.txt names:\n  {listed} (identity.txt)\n  {sum} (here)"
        )),
        None => Err(format!("identity.txt has no sum of {archive}")),
    }
}

fn same(identity: &str, key: &str, here: &str) -> Result<(), String> {
    let there = identity.lines().find_map(|line| line.strip_prefix(key)?.strip_prefix(": "));
    match there {
        Some(there) if there == here => Ok(()),
        Some(there) => Err(format!(
            "the library is not this package's: they differ in `{key}`:\n  {there} (identity.txt)\n  {here} (the package)"
        )),
        None => Err(format!("identity.txt has no line `{key}: `")),
    }
}
