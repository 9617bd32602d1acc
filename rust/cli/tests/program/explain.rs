//! `curlewstand explain`.

use crate::read::{Json, csv, json};
use crate::run::run;
use curlewstand::Reason;

const COLUMNS: [&str; 5] = ["number", "sentence", "place", "ends_objective", "advice"];

/// The words of a text, with one blank between them.
fn words(text: &str) -> String {
    text.split_whitespace().collect::<Vec<_>>().join(" ")
}

#[test]
fn each_refusal_for_people() {
    for reason in Reason::all() {
        let number = (reason as u32).to_string();
        let text = run(&["explain", &number]).answer();
        let effect = match reason {
            Reason::Records => "nothing is fitted: it is said before there is an objective",
            _ if reason.ends_objective() => "ends the objective",
            _ => "alters nothing: an objective that is under way stays so",
        };
        let (sentence, place, advice) = (reason.sentence(), reason.place(), reason.advice());
        let expected = format!(
            "refusal {number} found {sentence} place {place} effect {effect} to do {advice}"
        );
        assert_eq!(words(&text), expected);
        assert!(
            text.lines().all(|line| line.chars().count() <= 80),
            "{text}"
        );
    }
}

#[test]
fn thirteen_says_what_the_source_says() {
    let text = words(&run(&["explain", "13"]).answer());
    assert!(
        text.contains("unresolved (norm above 1e-3) or reaches the bound"),
        "{text}"
    );
    assert!(text.contains("effect ends the objective"), "{text}");
    let text = words(&run(&["explain", "5"]).answer());
    assert!(text.contains("effect alters nothing"), "{text}");
}

#[test]
fn all_of_them_for_people() {
    let text = run(&["explain"]).answer();
    assert_eq!(run(&["explain", "all"]).answer(), text);
    let sentences = Reason::all().map(|reason| format!("{} {}", reason as u32, reason.sentence()));
    let sentences = sentences.collect::<Vec<_>>().join(" ");
    let expected = format!("{sentences} curlewstand explain NUMBER says what to do about one");
    assert_eq!(words(&text), expected);
    assert!(text.starts_with(" 1  there are"), "{text}");
    assert!(
        text.lines().all(|line| line.chars().count() <= 80),
        "{text}"
    );
}

fn row(reason: Reason) -> [String; 5] {
    [
        (reason as u32).to_string(),
        reason.sentence().into(),
        reason.place().into(),
        reason.ends_objective().to_string(),
        reason.advice().into(),
    ]
}

#[test]
fn all_of_them_and_one_in_csv() {
    let rows = csv(&run(&["explain", "all", "--format", "csv"]).answer());
    assert_eq!(rows[0], COLUMNS);
    assert_eq!(rows[1..], Reason::all().map(row).collect::<Vec<_>>());
    let rows = csv(&run(&["explain", "--format=csv", "7"]).answer());
    assert_eq!(
        rows,
        [COLUMNS.map(String::from), row(Reason::IndividualValue)]
    );
}

fn object(reason: Reason) -> Json {
    let [_, sentence, place, _, advice] = row(reason);
    let values = [
        Json::Number(reason as u32 as f64),
        Json::Words(sentence),
        Json::Words(place),
        Json::Truth(reason.ends_objective()),
        Json::Words(advice),
    ];
    let names = COLUMNS.map(String::from);
    Json::Object(names.into_iter().zip(values).collect())
}

#[test]
fn all_of_them_and_one_in_json() {
    let read = json(&run(&["explain", "--format", "json"]).answer());
    assert_eq!(read.names(), ["refusals"]);
    assert_eq!(
        read["refusals"].list(),
        Reason::all().map(object).collect::<Vec<_>>()
    );
    let read = json(&run(&["explain", "19", "--format", "json"]).answer());
    assert_eq!(read.names(), ["refusal"]);
    assert_eq!(read["refusal"], object(Reason::NotDue));
}

#[test]
fn numbers_that_are_none() {
    let numbers: Vec<String> = Reason::all().map(|one| (one as u32).to_string()).collect();
    let (beyond, numbers) = ((numbers.len() + 1).to_string(), numbers.join(", "));
    for word in ["0", &beyond, "4294967309", "x", ""] {
        let line = run(&["explain", word]).line(2);
        let expected = format!(
            "there is no refusal '{word}', they are: {numbers}; see curlewstand explain --help"
        );
        assert_eq!(line, expected);
    }
}
