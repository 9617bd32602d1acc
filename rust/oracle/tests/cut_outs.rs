//! What was compiled is the source, line by line.
#![cfg(source_at_hand)]

use oracle::cut_outs::{CutOut, LIST, TEXTS};
use std::fs;

fn source_lines(cut: &CutOut) -> Vec<String> {
    let source = fs::read_to_string(cut.source).expect("the source was there at build time");
    source
        .split_inclusive('\n')
        .map(String::from)
        .collect::<Vec<_>>()[cut.first - 1..cut.last]
        .to_vec()
}

#[test]
fn each_item_is_a_run_of_the_source_byte_for_byte() {
    for (file, text) in TEXTS {
        let expected: String = LIST
            .iter()
            .filter(|cut| cut.file == *file)
            .flat_map(source_lines)
            .collect();
        assert_eq!(*text, expected, "{file}");
    }
}

/// The source is laid out in the usual way, so that a whole item can be told
/// without matching braces: it begins and ends at the margin, and nothing else
/// in it stands there but the end of a list of parameters and attributes.
#[test]
fn each_item_is_whole() {
    for cut in LIST {
        let lines = source_lines(cut);
        let start = lines
            .iter()
            .position(|line| line.starts_with(cut.item))
            .unwrap_or_else(|| panic!("{} is not in its own lines", cut.item));
        assert!(lines[..start].iter().all(|line| line.starts_with("#[")));
        let last = lines.last().unwrap().trim_end();
        if start + 1 == lines.len() {
            assert!(last.ends_with(';'), "{} ends in {last}", cut.item);
            continue;
        }
        assert_eq!(last, "}", "{}", cut.item);
        for line in &lines[start + 1..lines.len() - 1] {
            assert!(
                line.trim().is_empty() || line.starts_with("    ") || line.starts_with(')'),
                "{} holds {line}",
                cut.item
            );
        }
    }
}

#[test]
fn every_item_of_the_ported_functions_is_there() {
    let names = |file: &str| -> Vec<&str> {
        LIST.iter()
            .filter(|cut| cut.file == file)
            .map(|cut| cut.item)
            .collect()
    };
    assert_eq!(names("population_focei.rs").len(), 12);
    assert_eq!(names("population_focei_2d.rs").len(), 12);
    for (file, functions) in [
        (
            "population_focei.rs",
            &["row_terms", "subject", "mode", "population"][..],
        ),
        (
            "population_focei_2d.rs",
            &[
                "determinant",
                "inverse_positive",
                "product",
                "dot",
                "subject",
                "joint",
                "mode_from_seed",
                "mode",
                "population",
            ][..],
        ),
    ] {
        let text = TEXTS.iter().find(|(name, _)| *name == file).unwrap().1;
        for function in functions {
            let definition = format!("fn {function}(");
            assert_eq!(text.matches(&definition).count(), 1, "{file}: {function}");
        }
    }
}
