//! A static library of the repository: it is found, or made, and linked.
//!
//! Where `CURLEWSTAND_LIB_DIR` is set and not empty, the library is taken from that
//! directory and nowhere else, and nothing of Rattle is needed. Else `./library` is
//! run at the repository's top. It does nothing where `target/staticlib` has the
//! library of the Rattle sources as they are, and proves and builds it where it has
//! not: so an edit of a source is never linked with the library from before it.

use std::env;
use std::fs::File;
use std::io::{BufRead, BufReader, Write};
use std::path::{Path, PathBuf};
use std::process::{Command, Stdio};
use std::time::Instant;

/// Links `lib{library}.a`, or has the build fail with the reason.
pub fn link(library: &str) {
    println!("cargo::rerun-if-env-changed=CURLEWSTAND_LIB_DIR");
    let named = env::var_os("CURLEWSTAND_LIB_DIR").filter(|name| !name.is_empty());
    let found = match named {
        Some(directory) => find(library, Path::new(&directory)),
        None => make(library),
    };
    match found {
        Ok(directory) => {
            let archive = directory.join(format!("lib{library}.a"));
            println!("cargo::rerun-if-changed={}", archive.display());
            println!("cargo::rustc-link-search=native={}", directory.display());
            println!("cargo::rustc-link-lib=static={library}");
        }
        Err(why) => why.lines().for_each(|line| println!("cargo::error={line}")),
    }
}

/// The directory that was named, where it has the library.
fn find(library: &str, directory: &Path) -> Result<PathBuf, String> {
    let directory = std::path::absolute(directory).unwrap_or(directory.to_path_buf());
    if directory.join(format!("lib{library}.a")).is_file() {
        return Ok(directory);
    }
    Err(format!(
        "lib{library}.a is not in {}, which CURLEWSTAND_LIB_DIR names",
        directory.display()
    ))
}

/// The repository's own directory, with the library of the sources as they are.
fn make(library: &str) -> Result<PathBuf, String> {
    let or_name = format!("name a directory that has lib{library}.a in CURLEWSTAND_LIB_DIR");
    let manifest = env::var_os("CARGO_MANIFEST_DIR").map(PathBuf::from);
    let manifest = manifest.expect("cargo sets CARGO_MANIFEST_DIR");
    let top = manifest.ancestors().nth(2).unwrap_or(&manifest);
    let sources = ["crates", "crates.txt", "library", "scripts"].map(|name| top.join(name));
    if !sources.iter().all(|source| source.exists()) {
        return Err(format!(
            "the repository of Curlewstand, of which lib{library}.a is, is not at {}: {or_name}",
            top.display()
        ));
    }
    let parts = parts(&top.join("crates")).map_err(|why| format!("crates: {why}"))?;
    for source in sources[1..].iter().chain(&parts) {
        println!("cargo::rerun-if-changed={}", source.display());
    }
    let began = Instant::now();
    let (made, said) = run(library, top).map_err(|why| format!("./library did not run: {why}"))?;
    let (progress, rest): (Vec<_>, Vec<_>) = said
        .into_iter()
        .partition(|line| line.contains(" proved, "));
    if !made {
        return Err(format!("{}\nor {or_name}", rest.join("\n")));
    }
    if !progress.is_empty() {
        let seconds = began.elapsed().as_secs();
        println!("cargo::warning=lib{library}.a was proved and built, in {seconds} s");
    }
    Ok(top.join("target/staticlib"))
}

/// What the crates are made from. Beside it rt keeps its work, in `out`, which a run
/// of `./library` changes.
fn parts(crates: &Path) -> std::io::Result<Vec<PathBuf>> {
    let mut parts = Vec::new();
    for entry in crates.read_dir()? {
        let folder = entry?.path();
        let all = ["src", "specs", "proofs"].map(|name| folder.join(name));
        parts.extend(all.into_iter().filter(|part| part.exists()));
    }
    Ok(parts)
}

/// Runs `./library`. What it says is shown on the terminal as it comes, if there is
/// one, since cargo keeps a build script's own output to itself for as long as it runs.
fn run(library: &str, top: &Path) -> std::io::Result<(bool, Vec<String>)> {
    let mut terminal = File::options().write(true).open("/dev/tty").ok();
    let mut running = Command::new("sh")
        .args(["./library", library])
        .current_dir(top)
        .stdin(Stdio::null())
        .stdout(Stdio::null())
        .stderr(Stdio::piped())
        .spawn()?;
    let mut said = Vec::new();
    for line in BufReader::new(running.stderr.take().expect("it is piped")).split(b'\n') {
        let line = String::from_utf8_lossy(&line?).into_owned();
        if let Some(terminal) = &mut terminal {
            // in place of cargo's bar, which is drawn again below; a terminal may be gone
            let _ = writeln!(terminal, "\r\x1b[K{line}");
        }
        said.push(line);
    }
    Ok((running.wait()?.success(), said))
}
