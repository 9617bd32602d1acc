//! Help, version, and command lines that are not understood.

use crate::run::run;
use curlewstand::{Setup, ffi};

#[test]
fn the_version_has_the_librarys_numbers() {
    let one = Setup::one_effect(0).booked(1);
    let two = Setup::two_effects([[1., 0.], [0., 1.]], 0).booked(1);
    let expected = format!(
        "curlewstand {} (interface {}), ceilings {one} and {},{:03}\n",
        env!("CARGO_PKG_VERSION"),
        ffi::curlewstand_interface_2(),
        two / 1000,
        two % 1000
    );
    assert_eq!(run(&["--version"]).answer(), expected);
    assert_eq!(run(&["-V"]).answer(), expected);
}

/// The second number of the version is the number of the library's interface.
#[test]
fn the_version_goes_up_with_the_interface() {
    let interface = ffi::curlewstand_interface_2().to_string();
    assert_eq!(env!("CARGO_PKG_VERSION_MINOR"), interface);
}

#[test]
fn the_help_of_the_program() {
    let help = run(&["--help"]).answer();
    for words in [&["-h"][..], &["help"]] {
        assert_eq!(run(words).answer(), help);
    }
    for part in [
        "usage: curlewstand SUBCOMMAND",
        "\n  fit  ",
        "\n  explain  ",
        "--version",
    ] {
        assert!(help.contains(part), "{part} is not in {help}");
    }
    assert!(
        help.contains("Exit status: 0 answered; 1 refused"),
        "{help}"
    );
}

#[test]
fn the_help_of_each_subcommand() {
    let parts = [
        (
            "fit",
            "[FILE] [--hex | --format text|csv|json]",
            "A record is 48 bytes",
        ),
        (
            "explain",
            "[NUMBER | all] [--format text|csv|json]",
            "what was found",
        ),
    ];
    for (name, usage, part) in parts {
        let help = run(&[name, "--help"]).answer();
        assert!(
            help.starts_with(&format!("usage: curlewstand {name} {usage}\n")),
            "{help}"
        );
        assert!(
            help.contains(part) && help.contains("Exit status: 0"),
            "{help}"
        );
        assert!(help.contains("--format json"), "{help}");
        for words in [["help", name], ["--help", name], [name, "-h"]] {
            assert_eq!(run(&words).answer(), help);
        }
        // also behind other words, right or wrong
        assert_eq!(
            run(&[name, "--wrong", "one", "two", "--help"]).answer(),
            help
        );
    }
}

#[test]
fn help_fits_a_terminal() {
    for words in [&["--help"][..], &["help", "fit"], &["help", "explain"]] {
        let help = run(words).answer();
        let long = help.lines().find(|line| line.chars().count() > 80);
        assert_eq!(long, None);
        assert!(help.ends_with(".\n"), "{help}");
    }
}

#[test]
fn after_two_dashes_help_is_a_file() {
    let line = run(&["fit", "--", "--help"]).line(3);
    assert!(line.starts_with("'--help' cannot be read: "), "{line}");
}

/// What is said of a command line that is not understood, and where help is.
fn wrong(words: &str, what: &str, see: &str) {
    let words: Vec<&str> = words.split_whitespace().collect();
    assert_eq!(run(&words).line(2), format!("{what}; see {see}"));
}

#[test]
fn command_lines_that_are_not_understood() {
    let see = "curlewstand --help";
    wrong("", "usage: curlewstand fit|explain [...]", see);
    let subcommands = "the subcommands are fit, explain";
    for word in ["fti", "FIT", "fit-"] {
        let what = format!("there is no subcommand '{word}'; {subcommands}");
        wrong(word, &what, see);
        wrong(&format!("help {word}"), &what, see);
    }
    let what = format!("there is no option '--hex'; {subcommands}");
    wrong("--hex fit FILE", &what, see);
    wrong("help fit me", "'me' is one word too many", see);
    wrong("--version fit", "'fit' is one word too many", see);
}

#[test]
fn words_that_a_subcommand_does_not_take() {
    let see = "curlewstand fit --help";
    wrong("fit FILE again", "'again' is one word too many", see);
    wrong("fit -- FILE --hex", "'--hex' is one word too many", see);
    wrong(
        "fit FILE --hexadecimal",
        "there is no option --hexadecimal",
        see,
    );
    wrong("fit FILE --hex=yes", "--hex takes no value", see);
    wrong("fit FILE --format", "--format needs a value", see);
    wrong("fit --hex FILE --hex", "--hex is given twice", see);
    wrong(
        "fit --format=csv --format csv",
        "--format is given twice",
        see,
    );
    let together = "--hex and --format cannot be given together";
    wrong("fit --hex --format=csv", together, see);
    wrong("fit --format text --hex FILE", together, see);

    let see = "curlewstand explain --help";
    wrong("explain 13 --hex", "there is no option --hex", see);
    wrong("explain 13 14", "'14' is one word too many", see);
    wrong("explain -1", "there is no option -1", see);
}

#[test]
fn formats_that_are_none() {
    for subcommand in ["fit", "explain"] {
        for name in ["yaml", "CSV", ""] {
            let line = run(&[subcommand, "--format", name]).line(2);
            let expected = format!(
                "there is no format '{name}', they are: text, csv, json; \
                 see curlewstand {subcommand} --help"
            );
            assert_eq!(line, expected);
        }
    }
}
