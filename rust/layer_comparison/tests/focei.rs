//! The program `focei` beside the original: what it prints, byte by byte, for
//! files of records that are whole and for such that are damaged; and the same of
//! `curlewstand_fit`, the program as a call of the library.
#![cfg(source_at_hand)]

use curlewstand::ffi::curlewstand_fit;
use layer_comparison::compare::{simplest, Simpler};
use layer_comparison::focei::{focei, Record, RECORD};
use layer_comparison::focei_draws::{draw, KINDS};
use layer_comparison::random::Random;
use layer_comparison::session_met::Met;
use layer_comparison::session_replay::{program, run};
use std::path::Path;
use std::time::Instant;

fn one_record(floats: [f64; 5]) -> Vec<u8> {
    let record = Record {
        subject: 0,
        reserved: 0,
        floats,
    };
    record.bytes().to_vec()
}

const FIRST_EXAMPLE: &str = "O 0000000000000000 17\n\
                             S 0 0000000000000000\n\
                             F 0 0 0000000000000000 0000000000000000\n\
                             H 3ff0000000000000\n";

/// Document 01's files with what is to be printed for them.
fn printed_examples() -> [(Vec<u8>, &'static str); 3] {
    [
        (one_record([0., 1., 0., 0., 0.]), FIRST_EXAMPLE),
        (one_record([1000., 1., 0., 0., 1.]), "R 13 0 -\n"),
        (Vec::new(), "R 1 - -\n"),
    ]
}

#[test]
fn the_original_prints_the_examples() {
    for (bytes, text) in printed_examples() {
        assert_eq!(focei(&bytes).text, text);
    }
}

#[test]
fn the_program_prints_the_examples() {
    let program = program("focei");
    for (bytes, text) in printed_examples() {
        assert_eq!(String::from_utf8_lossy(&run(&program, bytes)), text);
    }
}

/// The bytes of the longest text.
const ROOM: usize = 30_267;
/// What stands in memory before a call.
const BEFORE: u8 = 0xaa;

/// The text that the library writes to so many bytes of a longer memory, of which it
/// must write nothing else.
fn written(records: &[u8], room: usize) -> Vec<u8> {
    let mut text = vec![BEFORE; ROOM + 100];
    let length =
        unsafe { curlewstand_fit(records.as_ptr(), records.len(), text.as_mut_ptr(), room) };
    assert!(text[length..].iter().all(|&byte| byte == BEFORE));
    text.truncate(length);
    text
}

#[test]
fn the_library_writes_the_examples() {
    for (bytes, text) in printed_examples() {
        for room in [ROOM, ROOM + 1, ROOM + 100] {
            assert_eq!(String::from_utf8_lossy(&written(&bytes, room)), text);
        }
        for room in [0, 1, text.len(), ROOM - 1] {
            assert_eq!(written(&bytes, room), []);
        }
    }
}

/// The same text, or the shortest file whose texts differ.
fn compare(program: &Path, bytes: &[u8], met: &mut Met) {
    let printed = focei(bytes);
    if run(program, bytes.to_vec()) != printed.text.as_bytes() {
        let bytes = simplest(
            &bytes.to_vec(),
            |bytes| shorter(bytes),
            |bytes| differs(program, bytes),
        );
        let ours = run(program, bytes.clone());
        panic!(
            "records {bytes:02x?}\nthe program prints\n{}\nthe original\n{}",
            String::from_utf8_lossy(&ours),
            focei(&bytes).text
        );
    }
    let library = written(bytes, ROOM);
    assert_eq!(
        String::from_utf8_lossy(&library),
        printed.text,
        "records {bytes:02x?}"
    );
    met.sessions += 1;
    match printed.end {
        Ok(objective) => {
            met.count("finished");
            met.count_if(objective.subjects.len() > 1, "several subjects");
            met.count_if(objective.subjects.len() > 60, "many subjects");
            met.count_if(objective.fitted.len() == 256, "256 records");
            met.count_if(printed.evaluations > 5_000, "more than 5,000 evaluations");
        }
        Err(refusal) => {
            met.refused[refusal.number.min(19) as usize] += (refusal.number < 20) as u64;
            met.count_if(refusal.number == 20, "20");
            met.count_if(refusal.subject > Some(0), "refused after the first subject");
            met.count_if(refusal.observation.is_some(), "refused with an observation");
        }
    }
}

fn differs(program: &Path, bytes: &[u8]) -> bool {
    run(program, bytes.to_vec()) != focei(bytes).text.as_bytes()
}

/// Without one of the records.
fn shorter(bytes: &[u8]) -> Simpler<'_, Vec<u8>> {
    Box::new((0..bytes.len() / RECORD).map(|number| {
        let mut shorter = bytes.to_vec();
        shorter.drain(RECORD * number..RECORD * (number + 1));
        shorter
    }))
}

#[test]
fn files_of_records() {
    let begun = Instant::now();
    let program = program("focei");
    let mut met = Met::default();
    for seed in 0..5_100 {
        let random = &mut Random::new(0xf0ce1 + seed);
        let kind = KINDS[seed as usize % KINDS.len()];
        compare(&program, &draw(random, kind), &mut met);
    }
    layer_comparison::say(&format!(
        "files of records: {met:?}, {:.1?}",
        begun.elapsed()
    ));
    hold(&met);
}

/// 1 is met by the examples. The other numbers cannot come: theta is 1, replies
/// are whole, and times stay as they are.
fn hold(met: &Met) {
    met.hold_refusals(10, &[4, 6, 11, 12, 13, 14, 18]);
    met.hold(100, &["20", "finished", "several subjects"]);
    met.hold(
        20,
        &[
            "many subjects",
            "256 records",
            "more than 5,000 evaluations",
            "refused after the first subject",
            "refused with an observation",
        ],
    );
}
