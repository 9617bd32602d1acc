//! Sessions by the program `test_sessions` beside those told by the original.

use crate::compare::{simplest, Simpler};
use crate::random::Random;
use crate::session_draws::draw;
use crate::session_met::Met;
use crate::session_model::{tell, Told};
use crate::session_plan::{Plan, Step};
use crate::session_words::{Expected, ANSWER};
use std::fmt::Write as _;
use std::io::{Read, Write};
use std::path::{Path, PathBuf};
use std::process::{Command, Stdio};
use std::thread;

/// The path of a program, in the directory named by `CURLEWSTAND_BIN_DIR` or in
/// the repository's `target/bin`.
pub fn program(name: &str) -> PathBuf {
    let directory = match std::env::var_os("CURLEWSTAND_BIN_DIR") {
        Some(directory) => PathBuf::from(directory),
        None => Path::new(env!("CARGO_MANIFEST_DIR")).join("../../target/bin"),
    };
    let path = directory.join(name);
    assert!(
        path.exists(),
        "{} is missing: .ci/run puts it there; or build it with `rt run` in crates/{name}, and name crates/{name}/out in CURLEWSTAND_BIN_DIR",
        path.display()
    );
    path
}

/// What the program writes when it is given the bytes.
pub fn run(program: &Path, input: Vec<u8>) -> Vec<u8> {
    let child = Command::new(program)
        .stdin(Stdio::piped())
        .stdout(Stdio::piped())
        .spawn();
    let mut child = child.unwrap_or_else(|why| panic!("{}: {why}", program.display()));
    let mut stdin = child.stdin.take().expect("stdin is a pipe");
    // a program that ends early leaves the rest unread
    let writing = thread::spawn(move || drop(stdin.write_all(&input)));
    let mut output = Vec::new();
    let mut stdout = child.stdout.take().expect("stdout is a pipe");
    stdout.read_to_end(&mut output).expect("stdout can be read");
    writing.join().expect("stdin can be written");
    let status = child.wait().expect("the program ends");
    assert!(status.success(), "{}: {status}", program.display());
    output
}

/// The words that the program answers to the scripts.
fn answers(program: &Path, scripts: &[&[u64]]) -> Vec<u64> {
    let words = scripts.iter().copied().flatten();
    let input = words.flat_map(|word| word.to_le_bytes()).collect();
    let output = run(program, input);
    let words = output.chunks_exact(8);
    words
        .map(|bytes| u64::from_le_bytes(bytes.try_into().expect("eight bytes")))
        .collect()
}

/// The first call whose answer is another, with what was answered.
fn difference(told: &Told, answers: &[u64]) -> Option<(usize, Vec<u64>)> {
    let mut chunks = answers.chunks(ANSWER);
    for (call, expected) in told.expected.iter().enumerate() {
        let words = chunks.next().unwrap_or(&[]);
        if !expected.is(words) {
            return Some((call, words.to_vec()));
        }
    }
    let more = chunks.next()?;
    Some((told.expected.len(), more.to_vec()))
}

/// The expected answers, with the program's in what they leave free; or nothing
/// where it answers otherwise.
pub fn answered(program: &Path, told: &Told) -> Option<Vec<u64>> {
    let answers = answers(program, &[&told.script]);
    if difference(told, &answers).is_some() {
        return None;
    }
    let free = |at: usize, expected: &Expected| answers[at] & !expected.said;
    let words = told
        .expected
        .iter()
        .enumerate()
        .flat_map(|(call, expected)| {
            let mut words = expected.words;
            words[ANSWER - 1] |= free(ANSWER * call + ANSWER - 1, expected);
            words
        });
    Some(words.collect())
}

fn differs(program: &Path, plan: &Plan) -> bool {
    let told = tell(plan);
    difference(&told, &answers(program, &[&told.script])).is_some()
}

/// Compares the sessions of these seeds, and counts what they met.
pub fn over_seeds(program: &Path, seeds: std::ops::Range<u64>) -> Met {
    let mut met = Met::default();
    let mut seed = seeds.start;
    while seed < seeds.end {
        let next = (seed + 400).min(seeds.end);
        let plans: Vec<Plan> = (seed..next)
            .map(|seed| draw(&mut Random::new(seed)))
            .collect();
        compare(program, &plans, seed, &mut met);
        seed = next;
    }
    met
}

/// A batch through one run of the program.
pub fn compare(program: &Path, plans: &[Plan], first_seed: u64, met: &mut Met) {
    let told: Vec<Told> = plans.iter().map(tell).collect();
    let scripts: Vec<&[u64]> = told.iter().map(|told| &told.script[..]).collect();
    let answers = answers(program, &scripts);
    let mut at = 0;
    for (number, told) in told.iter().enumerate() {
        let end = (at + ANSWER * told.expected.len()).min(answers.len());
        if difference(told, &answers[at..end]).is_some() {
            let seed = first_seed + number as u64;
            panic!("seed {seed}: {}", report(program, &plans[number]));
        }
        at = end;
        met.add(&told.met);
    }
    assert_eq!(at, answers.len(), "answers beyond the last call");
}

/// The session made as short as it can be while it differs, and its words.
fn report(program: &Path, plan: &Plan) -> String {
    if !differs(program, plan) {
        return "it differs after the sessions before it, but not alone".into();
    }
    let plan = simplest(plan, simpler, |plan| differs(program, plan));
    let told = tell(&plan);
    let answers = answers(program, &[&told.script]);
    let (call, words) = difference(&told, &answers).expect("it differs");
    let mut text = format!("{plan:#?}\nscript:");
    for word in &told.script {
        write!(text, " {word:x}").unwrap();
    }
    let expected = told.expected.get(call).map(|expected| expected.words);
    write!(
        text,
        "\ncall {call} of {}:\nexpected {expected:x?}\nanswered {words:x?}",
        told.expected.len()
    )
    .unwrap();
    text
}

/// With a part less: a step, what goes wrong in it, a subject, an observation.
fn simpler(plan: &Plan) -> Simpler<'_, Plan> {
    let mut fewer = Vec::new();
    let mut with = |change: &dyn Fn(&mut Plan)| {
        let mut plan = plan.clone();
        change(&mut plan);
        fewer.push(plan);
    };
    for number in 0..plan.steps.len() {
        with(&|plan| drop(plan.steps.remove(number)));
    }
    for (number, step) in plan.steps.iter().enumerate() {
        let Step::Objective(objective) = step else {
            continue;
        };
        let parts = objective.strays.len() + objective.faults.len();
        for part in 0..parts {
            with(&|plan| {
                if let Step::Objective(objective) = &mut plan.steps[number] {
                    match part.checked_sub(objective.strays.len()) {
                        None => drop(objective.strays.remove(part)),
                        Some(fault) => drop(objective.faults.remove(fault)),
                    }
                }
            });
        }
    }
    if plan.subjects.len() > 1 {
        for number in 0..plan.subjects.len() {
            with(&|plan| drop(plan.subjects.remove(number)));
        }
    }
    for (number, subject) in plan.subjects.iter().enumerate() {
        for more in subject.known..subject.observations.len() {
            with(&|plan| {
                plan.subjects[number].observations.remove(more);
            });
        }
    }
    Box::new(fewer.into_iter())
}
