//! `curlewstand fit`.

use crate::read::{Bits, Json, csv, hex, json};
use crate::run::{COHORT, COHORT_TEXT, Ran, fed, record, run};
use curlewstand::{Reason, Setup};
use std::io::Write;
use std::process::Stdio;

/// Document 01's examples: one that is fitted, and one that is refused with 13.
fn plain() -> Vec<u8> {
    record(0, [0., 1., 0., 0., 0.])
}

fn beyond() -> Vec<u8> {
    record(0, [1000., 1., 0., 0., 1.])
}

#[test]
fn hex_is_the_text_of_the_program() {
    let records = std::fs::read(COHORT).unwrap();
    assert_eq!(run(&["fit", "--hex", COHORT]).answer(), COHORT_TEXT);
    assert_eq!(run(&["fit", "--hex", "--", COHORT]).answer(), COHORT_TEXT);
    for words in [&["fit", "--hex"][..], &["fit", "-", "--hex"]] {
        assert_eq!(fed(words, &records).answer(), COHORT_TEXT);
    }
    let expected = "O 0000000000000000 17\n\
                    S 0 0000000000000000\n\
                    F 0 0 0000000000000000 0000000000000000\n\
                    H 3ff0000000000000\n";
    assert_eq!(fed(&["fit", "--hex"], &plain()).answer(), expected);
}

#[test]
fn the_printed_example_for_people() {
    let ceiling = Setup::one_effect(0).booked(1);
    let expected = format!(
        "\
objective                 0.0000   -2 log likelihood without n·log 2π
evaluations taken             17   runs of the simulator
evaluations booked  {ceiling:>12}   {ceiling} for each of 1 subject, never exceeded
shrinkage                 1.0000   1 - (mean of eta²) / omega

each subject's eta at its mode
subject     eta
      0  0.0000

predictions at eta zero (population) and at the mode (individual)
subject  observation  population  individual
      0            0      0.0000      0.0000
"
    );
    assert_eq!(fed(&["fit"], &plain()).answer(), expected);
    let asked = fed(&["fit", "--format", "text"], &plain());
    assert_eq!(asked.answer(), expected);
}

#[test]
fn the_printed_example_in_csv_and_json() {
    let ceiling = Setup::one_effect(0).booked(1);
    let expected = format!(
        "\
table,objective,taken,booked,shrinkage,subject,eta,observation,population,individual
fit,0.0,17,{ceiling},1.0,,,,,
subjects,,,,,0,0.0,,,
observations,,,,,0,,0,0.0,0.0
"
    );
    let shown = fed(&["fit", "--format=csv"], &plain());
    assert_eq!(shown.answer(), expected);
    let expected = r#"{
  "fit": {"objective": 0.0, "taken": 17, "booked": CEILING, "shrinkage": 1.0},
  "subjects": [
    {"subject": 0, "eta": 0.0}
  ],
  "observations": [
    {"subject": 0, "observation": 0, "population": 0.0, "individual": 0.0}
  ]
}
"#;
    let expected = expected.replace("CEILING", &ceiling.to_string());
    let shown = fed(&["fit", "--format", "json"], &plain());
    assert_eq!(shown.answer(), expected);
}

/// A table of the text: the lines below its caption, up to an empty one.
fn table<'a>(text: &'a str, caption: &str) -> Vec<&'a str> {
    let lines = text.lines().skip_while(|line| !line.starts_with(caption));
    lines.skip(1).take_while(|line| !line.is_empty()).collect()
}

/// The numbers of a table's lines, which are all equally long.
fn numbers(table: &[&str]) -> Vec<Vec<f64>> {
    assert!(table.iter().all(|line| line.len() == table[0].len()));
    let words = |line: &&str| {
        let words = line.split_whitespace();
        words.map(|word| word.parse().unwrap()).collect()
    };
    table[1..].iter().map(words).collect()
}

#[test]
fn the_cohort_for_people() {
    let text = run(&["fit", COHORT]).answer();
    let figures: Vec<Vec<&str>> = text
        .lines()
        .take(4)
        .map(|line| line.split_whitespace().collect())
        .collect();
    assert_eq!(figures[0][..2], ["objective", "-2.2816"]);
    assert_eq!(figures[1][..3], ["evaluations", "taken", "124"]);
    let booked = Setup::one_effect(0).booked(5).to_string();
    assert_eq!(figures[2][..3], ["evaluations", "booked", &booked]);
    assert_eq!(figures[3][..2], ["shrinkage", "0.8905"]);

    let near = |shown: f64, bits: u64| (shown - f64::from_bits(bits)).abs() <= 5e-5;
    let bits = hex(COHORT_TEXT);
    let subjects = numbers(&table(&text, "each subject's eta"));
    assert_eq!(subjects.len(), 5);
    for (subject, (shown, eta)) in subjects.iter().zip(&bits.etas).enumerate() {
        assert_eq!(shown[0], subject as f64);
        assert!(near(shown[1], *eta));
    }
    let observations = numbers(&table(&text, "predictions at eta zero"));
    assert_eq!(observations.len(), 20);
    for (shown, fitted) in observations.iter().zip(&bits.fitted) {
        assert_eq!(shown[..2], [fitted[0] as f64, fitted[1] as f64]);
        assert!(near(shown[2], fitted[2]) && near(shown[3], fitted[3]));
    }
}

#[test]
fn csv_reads_back_to_the_same_bits() {
    let rows = csv(&run(&["fit", COHORT, "--format", "csv"]).answer());
    let at = |name: &str| rows[0].iter().position(|column| column == name).unwrap();
    let bits = |row: &[String], name: &str| row[at(name)].parse::<f64>().unwrap().to_bits();
    let whole = |row: &[String], name: &str| row[at(name)].parse::<u64>().unwrap();
    let mut read = Bits::default();
    for row in &rows[1..] {
        assert_eq!(row.len(), rows[0].len());
        match row[at("table")].as_str() {
            "fit" => {
                (read.objective, read.shrinkage) = (bits(row, "objective"), bits(row, "shrinkage"));
                read.taken = whole(row, "taken");
                assert_eq!(whole(row, "booked"), Setup::one_effect(0).booked(5));
            }
            "subjects" => {
                assert_eq!(whole(row, "subject"), read.etas.len() as u64);
                read.etas.push(bits(row, "eta"));
            }
            "observations" => read.fitted.push([
                whole(row, "subject"),
                whole(row, "observation"),
                bits(row, "population"),
                bits(row, "individual"),
            ]),
            other => panic!("{other} is no table"),
        }
    }
    assert_eq!(read, hex(COHORT_TEXT));
}

#[test]
fn json_reads_back_to_the_same_bits() {
    let read = json(&run(&["fit", COHORT, "--format", "json"]).answer());
    let whole = |value: &Json| f64::from_bits(value.bits()) as u64;
    let etas = read["subjects"].list().iter().enumerate();
    let etas = etas.map(|(at, subject)| {
        assert_eq!(whole(&subject["subject"]), at as u64);
        subject["eta"].bits()
    });
    let fitted = read["observations"].list().iter().map(|one| {
        [
            whole(&one["subject"]),
            whole(&one["observation"]),
            one["population"].bits(),
            one["individual"].bits(),
        ]
    });
    let bits = Bits {
        objective: read["fit"]["objective"].bits(),
        taken: whole(&read["fit"]["taken"]),
        etas: etas.collect(),
        fitted: fitted.collect(),
        shrinkage: read["fit"]["shrinkage"].bits(),
    };
    assert_eq!(bits, hex(COHORT_TEXT));
    let booked = Setup::one_effect(0).booked(5) as f64;
    assert_eq!(read["fit"]["booked"], Json::Number(booked));
    assert_eq!(read.names(), ["fit", "subjects", "observations"]);
}

/// What is printed of a refusal, with its number and place on standard error, and no
/// second line there.
fn refused(ran: Ran, place: &str, reason: Reason) -> String {
    let sentence = reason.sentence();
    let number = reason as u32;
    let line = format!("curlewstand: refused with {number}{place}: {sentence}\n");
    assert_eq!((ran.status, ran.errors), (1, line));
    ran.output
}

#[test]
fn a_refusal_in_every_format() {
    let shown = |words: &[&str]| refused(fed(words, &beyond()), ", subject 0", Reason::NoMode);
    assert_eq!(shown(&["fit", "--hex"]), "R 13 0 -\n");

    let text = shown(&["fit"]);
    let words = text.split_whitespace().collect::<Vec<_>>().join(" ");
    let (sentence, advice) = (Reason::NoMode.sentence(), Reason::NoMode.advice());
    let expected = format!(
        "refused 13, subject 0: {sentence} to do {advice} \
         settings fixed for a file of records, see curlewstand fit --help"
    );
    assert_eq!(words, expected);
    assert!(text.lines().all(|line| line.chars().count() <= 80));

    let rows = csv(&shown(&["fit", "--format", "csv"]));
    let head = ["number", "subject", "observation", "sentence", "advice"];
    assert_eq!(rows, [head, ["13", "0", "", sentence, advice]]);

    let read = json(&shown(&["fit", "--format", "json"]));
    assert_eq!(
        (read.names(), read["refusal"].names()),
        (vec!["refusal"], head.to_vec())
    );
    assert_eq!(read["refusal"]["number"], Json::Number(13.));
    assert_eq!(read["refusal"]["subject"], Json::Number(0.));
    assert_eq!(read["refusal"]["observation"], Json::Null);
    assert_eq!(read["refusal"]["sentence"], Json::Words(sentence.into()));
    assert_eq!(read["refusal"]["advice"], Json::Words(advice.into()));
}

/// A refusal's line in hexadecimal text, and its number and place in CSV.
fn placed(records: &[u8], number_and_place: [&str; 3], told: &str, reason: Reason) {
    let line = refused(fed(&["fit", "--hex"], records), told, reason);
    assert_eq!(line, format!("R {}\n", number_and_place.join(" ")));
    let rows = refused(fed(&["fit", "--format=csv"], records), told, reason);
    let cells = number_and_place.map(|word| word.replace('-', ""));
    assert_eq!(csv(&rows)[1][..3], cells);
}

#[test]
fn every_kind_of_place() {
    let right = [1.2, 1., 0., 0., 1.];
    placed(b"", ["1", "-", "-"], "", Reason::Counts);
    let partial = &record(0, right)[..47];
    placed(partial, ["20", "-", "-"], "", Reason::Records);
    let jump = [record(0, right), record(2, right)].concat();
    placed(&jump, ["20", "-", "-"], "", Reason::Records);
    let deviation = record(1, [1.2, -1., 0., 0., 1.]);
    let first = [record(0, right), record(1, right).repeat(2)].concat();
    let told = ", subject 1, observation 2";
    let records = [first, deviation].concat();
    placed(&records, ["4", "1", "2"], told, Reason::Observation);
    let variance = record(0, [0., 0., 1., 0., 0.]);
    let told = ", subject 0, observation 0";
    placed(&variance, ["11", "0", "0"], told, Reason::Variance);
}

#[test]
fn a_file_that_is_too_short_is_told_its_size() {
    let text = refused(fed(&["fit"], b"x"), "", Reason::Records);
    assert!(text.ends_with("\nread     1 byte\n"), "{text}");
    let text = refused(fed(&["fit"], b""), "", Reason::Counts);
    assert!(text.ends_with("\nread     0 bytes\n"), "{text}");
}

#[test]
fn as_many_records_as_there_may_be() {
    let most = record(0, [1.2, 1., 0., 0., 1.]).repeat(256);
    assert!(fed(&["fit"], &most).answer().starts_with("objective"));
    let more = record(0, [1.2, 1., 0., 0., 1.]).repeat(257);
    let shown = refused(fed(&["fit", "--hex"], &more), "", Reason::Records);
    assert_eq!(shown, "R 20 - -\n");
}

/// An input without an end is refused, and not read for ever.
#[test]
fn an_endless_input_is_left() {
    let mut command = crate::run::command(&["fit", "--hex"]);
    let piped = command
        .stdin(Stdio::piped())
        .stdout(Stdio::piped())
        .stderr(Stdio::piped());
    let mut child = piped.spawn().unwrap();
    let mut input = child.stdin.take().unwrap();
    let chunk = [0; 1 << 16];
    let written = (0..64).take_while(|_| input.write_all(&chunk).is_ok());
    assert!(written.count() < 64, "4 MiB were read");
    drop(input);
    let ran = Ran::of(child.wait_with_output().unwrap());
    assert_eq!(refused(ran, "", Reason::Records), "R 20 - -\n");
}
