//! Links the C entries: has them proved and compiled for cargo's target from the sources of this package, or takes a library that was made elsewhere.

use std::env;
use std::io::{BufRead, BufReader};
use std::path::{Path, PathBuf};
use std::process::{exit, Command, Stdio};

#[path = "build/prebuilt.rs"]
mod prebuilt;
#[path = "build/sha256.rs"]
mod sha256;
#[path = "build/sources.rs"]
mod sources;

/// Names a folder that the command `library` has written; then nothing is proved here, and no kit is needed.
const PREBUILT: &str = "VAIMALOFO_LIB_DIR";
/// Set where only the docs are built, which need no library.
const DOCS: &str = "DOCS_RS";

fn main() {
    if let Err(why) = build() {
        eprintln!("vaimalofo: {why}");
        exit(1);
    }
}

fn build() -> Result<(), String> {
    println!("cargo::rerun-if-env-changed={PREBUILT}");
    println!("cargo::rerun-if-env-changed={DOCS}");
    let top = PathBuf::from(variable("CARGO_MANIFEST_DIR")?);
    if env::var_os(DOCS).is_some() {
        return rerun(&top);
    }
    // The library asks for nothing of C's, so it is the same one beside musl.
    let target = variable("TARGET")?.replace("-linux-musl", "-linux-gnu");
    let given = env::var_os(PREBUILT).filter(|folder| !folder.is_empty());
    let folder = if let Some(folder) = given {
        let folder = PathBuf::from(folder);
        let compared = prebuilt::compare(&top, &target, &folder);
        compared.map_err(|why| format!("{PREBUILT}={}: {why}", folder.display()))?;
        println!("cargo::rerun-if-changed={}", folder.display());
        folder
    } else {
        let out = PathBuf::from(variable("OUT_DIR")?);
        library(&top, shared(&top, &out), &target, &out.join("library"))?;
        out.join("library")
    };
    println!("cargo::rustc-link-search=native={}", folder.display());
    println!("cargo::rustc-link-lib=static=vaimalofo");
    println!("cargo::metadata=library={}", folder.display());
    rerun(&top)
}

fn variable(name: &str) -> Result<String, String> {
    env::var(name).map_err(|why| format!("{name}: {why}"))
}

/// Cargo runs this again where one of the sources has changed, and whenever it has failed.
fn rerun(top: &Path) -> Result<(), String> {
    for path in sources::paths(top)? {
        println!("cargo::rerun-if-changed={}", top.join(path).display());
    }
    Ok(())
}

/// The folder to prove in, or none where that is the package's own: in a checkout that has cargo's folder inside, rt takes any other copy of the crates
/// for crates that nothing proves. Else all profiles and targets of one target folder of cargo's share it: OUT_DIR is
/// TARGET-FOLDER/[TARGET/]PROFILE/build/../out, and where it is not, it is shared by none.
fn shared(top: &Path, out: &Path) -> Option<PathBuf> {
    if let (Ok(top), Ok(out)) = (top.canonicalize(), out.canonicalize()) {
        if out.starts_with(&top) && sources::is_whole(&top) {
            return None;
        }
    }
    let build = out.ancestors().skip(2).take(2).find(|above| above.ends_with("build"));
    let all = build.and_then(|build| {
        let above = build.parent()?.parent()?;
        let target = env::var_os("TARGET").is_some_and(|target| above.ends_with(target));
        if target {
            above.parent()
        } else {
            Some(above)
        }
    });
    Some(all.unwrap_or(out).join("vaimalofo"))
}

/// The project's own command `library`, which compares the kit with the file KIT, proves the sources or a copy of them, and says crate by crate what it
/// proves: `cargo build -vv` shows that as it comes. All else that it says is a warning, or why it failed.
fn library(top: &Path, work: Option<PathBuf>, target: &str, folder: &Path) -> Result<(), String> {
    if !cfg!(target_os = "linux") {
        return Err(format!("the kit, which proves the C entries, runs on Linux alone: set {PREBUILT} to a folder that `library {target}` has written there"));
    }
    let mut command = Command::new("bash");
    command.arg(top.join("library"));
    if let Some(work) = work {
        command.arg("--in").arg(work);
    }
    command.arg(target).arg(folder);
    let run = command.stdin(Stdio::null()).stdout(Stdio::null()).stderr(Stdio::piped()).spawn();
    let mut child =
        run.map_err(|why| format!("cannot run bash, which runs the command `library`: {why}"))?;
    let said = child.stderr.take().ok_or("library has no standard error")?;
    let mut rest = Vec::new();
    for line in BufReader::new(said).split(b'\n') {
        let line = line.map_err(|why| format!("cannot read what library says: {why}"))?;
        let line = String::from_utf8_lossy(&line).into_owned();
        if line.starts_with("proving ") || line.starts_with("proving:") {
            eprintln!("{line}");
        } else {
            rest.push(line);
        }
    }
    let status = child.wait().map_err(|why| format!("library: {why}"))?;
    if !status.success() {
        rest.iter().for_each(|line| eprintln!("{line}"));
        return Err(format!("there is no library for {target}: {}", reason(status.code())));
    }
    rest.iter().for_each(|line| println!("cargo::warning={line}"));
    Ok(())
}

/// What the statuses of `library` say.
fn reason(status: Option<i32>) -> String {
    let elsewhere = format!("or set {PREBUILT} to a folder that `library` has written elsewhere");
    match status {
        Some(2) => "it is made for other targets alone".into(),
        Some(3) => "a proof failed".into(),
        Some(4) => format!("the kit is missing: put its command rt on the PATH, {elsewhere}"),
        Some(5) => {
            format!("the kit has another logic: take the one that the file KIT names, {elsewhere}")
        }
        Some(6) => "the disk is full, and no proof has failed".into(),
        Some(7) => "a folder cannot be written, and no proof has failed".into(),
        Some(status) => format!("its command ended with status {status}, and no proof has failed"),
        None => "its command was stopped".into(),
    }
}
