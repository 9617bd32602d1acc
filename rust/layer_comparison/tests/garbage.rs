//! Any words in everything that is lent, of any length, and the calls in any order: a
//! call returns, writes nothing that it is not lent to write, and leaves what document
//! 01 says. `layer_comparison::garbage_checks` has what is held after each call.

use curlewstand::ffi::curlewstand_ceiling;
use layer_comparison::garbage::run;
use layer_comparison::garbage_checks::{alike, ended, End};
use layer_comparison::garbage_draws::session;
use layer_comparison::garbage_memory::{Call, Memory, LENT, NAMES};
use layer_comparison::random::Random;

#[test]
fn calls_stand_any_words() {
    match run(1, 2_000_000) {
        Ok(met) => {
            layer_comparison::say(&format!("{met}"));
            met.hold(20);
        }
        Err(fault) => panic!("{fault}"),
    }
}

/// The call is held to have altered nothing, and then again with each word of what it
/// left altered in turn, which must be found.
fn finds_any_word(call: Call, before: &Memory) {
    let mut after = before.clone();
    let number = after.call(call);
    let held = ended(call, number, before, &after);
    assert_eq!(held, Ok(End::Refused(19)));
    assert_eq!(alike(number, &after, number, &after), Ok(()));
    for at in 0..LENT {
        for place in 0..after.words(at).len() {
            let mut written = after.clone();
            written.lent[at].lent()[place] ^= 1;
            let what = format!("{call:?}, word {place} of {}", NAMES[at]);
            let held = ended(call, number, before, &written);
            assert!(held.is_err(), "{what}: {held:?}");
            assert!(alike(number, &after, number, &written).is_err(), "{what}");
        }
    }
}

#[test]
fn a_word_that_is_altered_is_found() {
    for seed in 0..20 {
        let mut memory = session(&mut Random::new(seed), 1.);
        assert_eq!(memory.call(Call::Setup), 0);
        for call in [Call::Reply, Call::SubjectReply, Call::Failure] {
            finds_any_word(call, &memory);
        }
    }
}

#[test]
fn ceilings_of_any_number() {
    let numbers = (0..1000).chain((0..32).flat_map(|bit| [1 << bit, u32::MAX >> bit]));
    for effects in numbers {
        let ceiling = match effects {
            1 => 17 + 1 + 16 + 48,
            2 => 1 + 6 * (1 + 48 * 22),
            _ => 0,
        };
        assert_eq!(curlewstand_ceiling(effects), ceiling, "{effects} effects");
    }
}
