//! Cuts the items named below out of the two source files, whole lines and
//! unchanged, and writes them where the library includes them.
//!
//! The source files are looked for in the directory named by `QSPQUEST_SRC`,
//! else in `../shared/docs/src` beside the repository. Where they are missing
//! the library is built without them.

use std::env;
use std::fmt::Write;
use std::fs;
use std::path::{Path, PathBuf};

/// An item by the beginning of its first line, with the numbers that document
/// 01 gives to the refusals made in it, in the order of the text.
struct Item {
    start: &'static str,
    refusals: &'static [u32],
}

const fn item(start: &'static str) -> Item {
    Item {
        start,
        refusals: &[],
    }
}

const fn refusing(start: &'static str, refusals: &'static [u32]) -> Item {
    Item { start, refusals }
}

/// `MAX_CACHED_OBSERVATION_ROWS` is left out on purpose: K stands in for it.
const POPULATION_FOCEI: &[Item] = &[
    item("const LOG_2PI:"),
    item("type SubjectKey ="),
    item("type TrajectoryKey ="),
    item("struct Observation {"),
    item("struct RowTerms {"),
    refusing("fn row_terms(", &[11, 12]),
    item("struct Subject {"),
    item("struct Conditional {"),
    item("struct PredictionRow {"),
    item("struct Evaluation {"),
    item("struct Evaluator<'a> {"),
    // subject, then mode, then population
    refusing(
        "impl Evaluator<'_> {",
        &[6, 7, 9, 10, 12, 13, 14, 15, 16, 17, 18],
    ),
];

const POPULATION_FOCEI_2D: &[Item] = &[
    item("type Vector ="),
    item("type Matrix ="),
    item("type CacheKey ="),
    item("struct Setup {"),
    item("struct Conditional2 {"),
    item("struct Evaluation2 {"),
    item("struct Evaluator2<'a> {"),
    item("fn determinant("),
    item("fn inverse_positive("),
    item("fn product("),
    item("fn dot("),
    // subject, then mode_from_seed, then mode, then population
    refusing(
        "impl Evaluator2<'_> {",
        &[6, 7, 9, 10, 11, 12, 16, 13, 14, 16, 17, 18],
    ),
];

const FILES: &[(&str, &[Item])] = &[
    ("population_focei.rs", POPULATION_FOCEI),
    ("population_focei_2d.rs", POPULATION_FOCEI_2D),
];

fn main() {
    println!("cargo::rustc-check-cfg=cfg(source_at_hand)");
    println!("cargo::rerun-if-changed=build.rs");
    println!("cargo::rerun-if-env-changed=QSPQUEST_SRC");
    let directory = source_directory();
    println!("cargo::rerun-if-changed={}", directory.display());
    let sources: Vec<Option<PathBuf>> = FILES
        .iter()
        .map(|(name, _)| find(&directory, name))
        .collect();
    if sources.iter().any(Option::is_none) {
        println!("cargo::metadata=at_hand=no");
        return;
    }
    println!("cargo::metadata=at_hand=yes");
    println!("cargo::rustc-cfg=source_at_hand");
    let out = PathBuf::from(env::var("OUT_DIR").unwrap());
    let mut list = String::from("pub const LIST: &[CutOut] = &[\n");
    let mut refusals = String::from("const REFUSALS: &[(&str, u32, u32)] = &[\n");
    for ((name, items), path) in FILES.iter().zip(sources) {
        let path = path.unwrap();
        println!("cargo::rerun-if-changed={}", path.display());
        let source = fs::read_to_string(&path).expect("the source is text");
        let cut = cut_out(name, &path, &source, items, &mut list, &mut refusals);
        fs::write(out.join(name), cut).unwrap();
    }
    list.push_str("];\n");
    refusals.push_str("];\n");
    fs::write(out.join("list.rs"), list).unwrap();
    fs::write(out.join("refusals.rs"), refusals).unwrap();
}

fn source_directory() -> PathBuf {
    match env::var_os("QSPQUEST_SRC") {
        Some(directory) => PathBuf::from(directory),
        None => {
            Path::new(&env::var("CARGO_MANIFEST_DIR").unwrap()).join("../../../shared/docs/src")
        }
    }
}

/// The file of that name, whether it stands under its own name or under its
/// path in the original repository with `.txt` at the end.
fn find(directory: &Path, name: &str) -> Option<PathBuf> {
    let mut paths: Vec<PathBuf> = fs::read_dir(directory)
        .ok()?
        .filter_map(|entry| Some(entry.ok()?.path()))
        .filter(|path| {
            let file = path.file_name().unwrap().to_string_lossy();
            let file = file.strip_suffix(".txt").unwrap_or(&file);
            file == name || file.ends_with(&format!("--{name}"))
        })
        .collect();
    paths.sort();
    paths.into_iter().next()
}

/// The items' texts one after the other. Their places in the source go to
/// `list`, the lines of `cut` at which a refusal is made go to `refusals`.
fn cut_out(
    name: &str,
    path: &Path,
    source: &str,
    items: &[Item],
    list: &mut String,
    refusals: &mut String,
) -> String {
    let mut cut = String::new();
    for item in items {
        let lines = item_lines(source, item.start)
            .unwrap_or_else(|why| panic!("{name}: `{}` {why}", item.start));
        writeln!(
            list,
            "    CutOut {{ file: {name:?}, source: {path:?}, item: {:?}, first: {}, last: {} }},",
            item.start,
            lines.start + 1,
            lines.end,
        )
        .unwrap();
        let first_line = cut.lines().count() + 1;
        let text: String = source.split_inclusive('\n').collect::<Vec<_>>()[lines].concat();
        let sites: Vec<usize> = text
            .lines()
            .enumerate()
            .filter(|(_, line)| line.contains("Error::new(") || line.contains("invalid("))
            .map(|(number, _)| first_line + number)
            .collect();
        assert_eq!(
            sites.len(),
            item.refusals.len(),
            "{name}: `{}` makes another number of refusals than expected",
            item.start
        );
        for (line, number) in sites.iter().zip(item.refusals) {
            writeln!(refusals, "    ({name:?}, {line}, {number}),").unwrap();
        }
        cut.push_str(&text);
    }
    cut
}

/// The lines of an item, from its attributes to its last line, counted from 0.
fn item_lines(source: &str, start: &str) -> Result<std::ops::Range<usize>, &'static str> {
    let lines: Vec<&str> = source.split_inclusive('\n').collect();
    let mut starts = (0..lines.len()).filter(|&line| lines[line].starts_with(start));
    let start = starts.next().ok_or("is not in the source")?;
    if starts.next().is_some() {
        return Err("is in the source more than once");
    }
    let mut first = start;
    while first > 0 && (lines[first - 1].starts_with("#[") || lines[first - 1].starts_with("///")) {
        first -= 1;
    }
    let before: usize = lines[..start].iter().map(|line| line.len()).sum();
    let length = item_length(&source[before..]).ok_or("has no end")?;
    let last = start + source[before..before + length].matches('\n').count();
    Ok(first..last + 1)
}

/// How many bytes an item takes: to the brace that closes it, or to the
/// semicolon that ends it. Strings, characters and comments are passed over.
fn item_length(text: &str) -> Option<usize> {
    let bytes = text.as_bytes();
    let mut depth = 0;
    let mut at = 0;
    while at < bytes.len() {
        let passed = passed_over(&text[at..]);
        if passed > 0 {
            at += passed;
            continue;
        }
        match bytes[at] {
            b'(' | b'[' | b'{' => depth += 1,
            b')' | b']' => depth -= 1,
            b'}' => {
                depth -= 1;
                if depth == 0 {
                    return Some(at + 1);
                }
            }
            b';' if depth == 0 => return Some(at + 1),
            _ => {}
        }
        at += 1;
    }
    None
}

/// The length of the comment, string or character that the text begins with,
/// 0 where it begins with none. A lifetime is not a character.
fn passed_over(text: &str) -> usize {
    if text.starts_with("//") {
        return text.find('\n').unwrap_or(text.len());
    }
    if text.starts_with("/*") {
        return text.find("*/").map_or(text.len(), |end| end + 2);
    }
    if text.starts_with('"') {
        return quoted(text, '"');
    }
    let mut characters = text.chars();
    if characters.next() == Some('\'') {
        let escaped = characters.next() == Some('\\');
        if escaped || characters.next() == Some('\'') {
            return quoted(text, '\'');
        }
    }
    0
}

fn quoted(text: &str, quote: char) -> usize {
    let mut escaped = false;
    for (at, character) in text.char_indices().skip(1) {
        if escaped {
            escaped = false;
        } else if character == '\\' {
            escaped = true;
        } else if character == quote {
            return at + quote.len_utf8();
        }
    }
    text.len()
}
