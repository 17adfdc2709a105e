//! Links the static library: the file that `CELDUGA_ARCHIVE` names, or `target/staticlib/libcelduga.a` in the project's
//! root. Where that one is missing, or older than the crates that it is made from, `./build celduga` makes it first.

use std::env;
use std::fs;
use std::io::{self, BufRead, BufReader, Read};
use std::path::{Path, PathBuf};
use std::process::{exit, Command, Stdio};
use std::thread;
use std::time::SystemTime;

const GIVEN: &str = "CELDUGA_ARCHIVE";
const ARCHIVE: &str = "target/staticlib/libcelduga.a";
const MAKE: &str = "`./build celduga`";

fn main() {
    println!("cargo:rerun-if-changed=build.rs");
    println!("cargo:rerun-if-env-changed={GIVEN}");
    if let Err(wrong) = archive().and_then(|archive| link(&archive)) {
        eprintln!("error: {wrong}");
        exit(1);
    }
}

/// The archive to link.
fn archive() -> Result<PathBuf, String> {
    if let Some(given) = env::var_os(GIVEN).filter(|given| !given.is_empty()) {
        return found(Path::new(&given)).map_err(|wrong| format!("{GIVEN} names no archive: {wrong}"));
    }
    let package = env::var_os("CARGO_MANIFEST_DIR").ok_or("cargo does not say where the package is")?;
    let root = Path::new(&package)
        .parent()
        .ok_or("the package has no folder around it")?;
    let sources = sources(root).map_err(|wrong| format!("the crates are not to be read: {wrong}"))?;
    for source in sources.iter().filter(|source| source.exists()) {
        println!("cargo:rerun-if-changed={}", source.display());
    }
    let archive = root.join(ARCHIVE);
    if let Some(why) = outdated(root, &archive).map_err(|wrong| format!("the crates are not to be read: {wrong}"))? {
        make(root, &why)?;
    }
    found(&archive).map_err(|wrong| format!("{MAKE} has made no archive: {wrong}"))
}

/// The whole path of a file that is there.
fn found(archive: &Path) -> Result<PathBuf, String> {
    match fs::canonicalize(archive) {
        Ok(whole) if whole.is_file() => Ok(whole),
        Ok(whole) => Err(format!("{} is no file", whole.display())),
        Err(wrong) => Err(format!("{}: {wrong}", archive.display())),
    }
}

/// Why the archive is to be made, where it is.
fn outdated(root: &Path, archive: &Path) -> io::Result<Option<String>> {
    if !archive.is_file() {
        return Ok(Some(format!("there is no {ARCHIVE}")));
    }
    let made = fs::metadata(archive)?.modified()?;
    Ok(newest(root)?.filter(|&(changed, _)| changed > made).map(|(_, source)| {
        format!(
            "{ARCHIVE} is older than {}",
            source.strip_prefix(root).unwrap_or(&source).display()
        )
    }))
}

/// crates.txt and the folders that are proved.
fn sources(root: &Path) -> io::Result<Vec<PathBuf>> {
    let crates = entries(&root.join("crates"))?.into_iter();
    let mut found: Vec<PathBuf> = crates
        .flat_map(|folder| ["src", "specs", "proofs"].map(|part| folder.join(part)))
        .collect();
    found.push(root.join("crates.txt"));
    Ok(found)
}

/// What changed last among crates.txt and the files and folders that are proved. A folder changes when a file is taken
/// out of it.
fn newest(root: &Path) -> io::Result<Option<(SystemTime, PathBuf)>> {
    let mut left = sources(root)?;
    let mut newest = None;
    while let Some(source) = left.pop() {
        if let Some(about) = unless_missing(fs::metadata(&source))? {
            if about.is_dir() {
                left.extend(entries(&source)?.into_iter().filter(|inner| !inner.ends_with("target")));
            }
            newest = newest.max(Some((about.modified()?, source)));
        }
    }
    Ok(newest)
}

/// What is in a folder; nothing where there is none.
fn entries(folder: &Path) -> io::Result<Vec<PathBuf>> {
    match unless_missing(fs::read_dir(folder))? {
        Some(entries) => entries.map(|entry| Ok(entry?.path())).collect(),
        None => Ok(Vec::new()),
    }
}

fn unless_missing<T>(read: io::Result<T>) -> io::Result<Option<T>> {
    match read {
        Err(wrong) if wrong.kind() == io::ErrorKind::NotFound => Ok(None),
        read => read.map(Some),
    }
}

/// What to do where the archive can't be made.
fn unmade(why: &str, wrong: &str) -> String {
    format!(
        "{why}, and {MAKE}, which would make it, does not run: {wrong}\n\
         Put `rt` of the Rattle toolchain on the path, or let the environment variable {GIVEN} name an archive."
    )
}

/// Makes the archive in the project's root.
fn make(root: &Path, why: &str) -> Result<(), String> {
    let mut rt = Command::new(root.join("build"))
        .arg("celduga")
        .current_dir(root)
        .stdin(Stdio::null())
        .stdout(Stdio::piped())
        .stderr(Stdio::piped())
        .spawn()
        .map_err(|wrong| unmade(why, &wrong.to_string()))?;
    println!(
        "cargo:warning={why}: {MAKE} proves and makes it, which takes minutes the first time \
         (`cargo build -vv` shows it at work)"
    );
    let output = rt.stdout.take().expect("it is piped");
    let errors = rt.stderr.take().expect("it is piped");
    thread::scope(|scope| {
        scope.spawn(|| pass_on(errors));
        pass_on(output);
    });
    match rt.wait() {
        Ok(status) if status.success() => Ok(()),
        // the shell's word for a command that is not there
        Ok(status) if status.code() == Some(127) => Err(unmade(why, "there is no `rt`")),
        Ok(status) => Err(format!("{why}, and {MAKE} fails: {status}")),
        Err(wrong) => Err(format!("{MAKE} is lost: {wrong}")),
    }
}

/// Passes each line on as it comes. The lines of `rt` itself, one for each crate, are warnings too, which cargo shows
/// in any case.
fn pass_on(output: impl Read) {
    for line in BufReader::new(output).split(b'\n').map_while(Result::ok) {
        let line = String::from_utf8_lossy(&line);
        eprintln!("{line}");
        if line.starts_with("rt: ") {
            println!("cargo:warning={line}");
        }
    }
}

/// Tells cargo to link it, and to look again when it changes.
fn link(archive: &Path) -> Result<(), String> {
    let (Some(folder), Some(name)) = (
        archive.parent().and_then(Path::to_str),
        archive.file_name().and_then(|name| name.to_str()),
    ) else {
        return Err(format!("the path is not UTF-8: {}", archive.display()));
    };
    println!("cargo:rerun-if-changed={folder}/{name}");
    println!("cargo:rustc-link-search=native={folder}");
    println!("cargo:rustc-link-lib=static:+verbatim={name}");
    Ok(())
}
