//! The sessions with two effects that the checker has computed
//! (crates/test_marked/specs/Session2.antt), through the compiled code, and beside
//! the original: the words are read from that file.

use curlewstand::{Observation, Session, Setup, Side, Step, TwoEffects};
use std::path::Path;

/// The file's text, without its comments.
fn worked() -> String {
    let here = Path::new(env!("CARGO_MANIFEST_DIR"));
    let file = here.join("../../crates/test_marked/specs/Session2.antt");
    let text = std::fs::read_to_string(file).expect("the worked sessions can be read");
    let lines = text.lines().filter(|line| !line.trim().starts_with("--"));
    lines.collect::<Vec<_>>().join("\n")
}

/// The words that stand in a text, one after the other.
fn words(text: &str) -> Vec<u64> {
    let word = |token: &str| {
        let token = token.trim_end_matches(';');
        match token.strip_prefix("0x") {
            Some(digits) => u64::from_str_radix(&digits.replace('_', ""), 16).ok(),
            None => token.parse().ok(),
        }
    };
    text.split_whitespace().filter_map(word).collect()
}

/// What stands after a definition's name, up to the end of its list.
fn list(text: &str, name: &str) -> Vec<u64> {
    let (_, rest) = text.split_once(name).expect("the definition is there");
    let (inside, _) = rest.split_once("[]").expect("its list ends");
    words(inside)
}

/// Questions: eta, second eta, and both individual values.
fn questions(text: &str, name: &str) -> Vec<[u64; 4]> {
    let words = list(text, &format!("\n{name} =\n"));
    assert_eq!(words.len() % 4, 0);
    let questions = words.chunks_exact(4);
    questions.map(|one| one.try_into().unwrap()).collect()
}

/// The objective with the mode.
fn objective(text: &str) -> u64 {
    let (_, rest) = text.split_once("end = finished ").expect("it is there");
    words(rest)[0]
}

/// The file's setup, with this eta_bound.
fn setup(eta_bound: f64) -> Setup {
    Setup {
        eta_bound,
        kept_rows: 25,
        output_budget: 3,
        ..Setup::two_effects([[1., 0.5], [0.5, 1.]], 25)
    }
}

fn session(eta_bound: f64) -> Session {
    let observation = Observation {
        output: 0,
        row: 0,
        value: 3.,
        additive: 0.5,
        proportional: 0.,
    };
    Session::new(setup(eta_bound), &[vec![observation]]).expect("the setup is accepted")
}

/// The questions of an objective, and its value or its refusal's number. The
/// simulator gives the prediction and both derivatives.
fn played(
    session: &mut Session,
    simulator: fn(f64) -> [f64; 3],
) -> (Vec<[u64; 4]>, Result<u64, u32>) {
    let mut asked = Vec::new();
    let mut step = session.begin(TwoEffects { theta: [1., 1.] });
    while let Ok(Step::Asked(question)) = step {
        let bits = |two: [f64; 2]| two.map(f64::to_bits);
        let [eta, individual] = [question.eta, question.individual].map(bits);
        asked.push([eta[0], eta[1], individual[0], individual[1]]);
        let [prediction, first, second] = simulator(question.individual[0]);
        let mut rows = session.rows();
        rows.push(0., Side::Pre, &[(prediction, [first, second])])
            .expect("the session has one output and two effects");
        step = session.reply(&rows);
    }
    let end = match step {
        Ok(Step::Finished(objective)) => Ok(objective.to_bits()),
        Ok(Step::Asked(_)) => unreachable!("it was replied to"),
        Err(refusal) => Err(refusal.number),
    };
    (asked, end)
}

/// The file's simulators.
fn first_value(individual: f64) -> [f64; 3] {
    [individual, 1., 0.]
}

const STEEP: f64 = (1u32 << 24) as f64;

fn steep(_: f64) -> [f64; 3] {
    [0., STEEP, STEEP]
}

/// What is asked for at eta zero, where theta is 1.
const ZERO: [u64; 4] = [0, 0, 1f64.to_bits(), 1f64.to_bits()];

#[test]
fn a_mode_and_the_same_again_from_kept_evaluations() {
    let text = worked();
    let mut session = session(2.);
    let objective = objective(&text);
    for asked in [questions(&text, "to_mode"), Vec::new()] {
        assert_eq!(played(&mut session, first_value), (asked, Ok(objective)));
        let tally = session.tally();
        assert_eq!((tally.calls, tally.cached_rows), (25, 25));
        assert_eq!(session.result_words(), list(&text, "\n  results ="));
        let warm = session.warm_start(0).unwrap().map(f64::to_bits);
        assert_eq!(warm[..], list(&text, "\n  warm ="));
    }
}

#[test]
fn refused_with_13_and_with_16() {
    let text = worked();
    let mut at_bound = session(1.);
    let asked = questions(&text, "to_bound");
    assert_eq!(played(&mut at_bound, first_value), (asked, Err(13)));
    let mut flat = session(2.);
    assert_eq!(played(&mut flat, steep), (vec![ZERO], Err(16)));
}

#[cfg(source_at_hand)]
mod beside_the_original {
    use super::*;
    use layer_comparison::session_example::worked_example;
    use layer_comparison::session_model::tell;
    use layer_comparison::simulators_2d::Kind2;

    /// The questions that the original leads to, and the first two words of the
    /// last answer. The simulator is a + b·x + c·y.
    fn told(eta_bound: f64, plane: [f64; 3]) -> (Vec<[u64; 4]>, [u64; 2]) {
        let told = tell(&worked_example(eta_bound, Kind2::Plane, plane));
        let answers = told.expected.iter().skip(1).map(|answer| answer.words);
        let end = answers.clone().last().expect("there is an end");
        let asked = answers.filter(|words| words[0] == 0);
        let asked = asked.map(|words| words[1..5].try_into().unwrap());
        (asked.collect(), [end[0], end[1]])
    }

    #[test]
    fn its_questions_and_ends() {
        let text = worked();
        let first_value = [0., 1., 0.];
        let mode = (questions(&text, "to_mode"), [1, objective(&text)]);
        assert_eq!(told(2., first_value), mode);
        assert_eq!(
            told(1., first_value),
            (questions(&text, "to_bound"), [2, 13])
        );
        // at eta zero, the only point, its prediction is 0
        let steep = [-2. * STEEP, STEEP, STEEP];
        assert_eq!(told(2., steep), (vec![ZERO], [2, 16]));
    }
}
