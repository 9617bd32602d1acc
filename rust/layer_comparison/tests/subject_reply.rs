//! Replies that lend the awaited subject's observations alone, beside replies
//! that lend all of them: what each leaves must be the same, word by word. And
//! what is not right of what is lent: document 01's number and place, with
//! nothing altered.

use curlewstand::ffi::{self, Observation, SessionParameters, SessionSetup, Tally};
use layer_comparison::random::Random;

/// All that a session is lent.
#[derive(Clone, Debug, PartialEq)]
struct Lent {
    setup: SessionSetup,
    observations: Vec<Observation>,
    counts: Vec<u64>,
    tally: Tally,
    state: Vec<u64>,
    answer: Vec<u64>,
    cache: Vec<u64>,
    work: Vec<u64>,
    warm: Vec<u64>,
    results: Vec<u64>,
}

const SUBJECT: usize = 8;
const FIRST: usize = 9;
/// The state's words with the numbers of the first row that is kept and of the
/// next one.
const FIRST_ROW: usize = 16;
const NEXT_ROW: usize = 17;
/// The state's word that says how many effects its search has.
const EFFECTS: usize = 18;

impl Lent {
    fn open(setup: SessionSetup, cohort: &[Vec<Observation>]) -> Lent {
        let largest = cohort.iter().map(Vec::len).max().unwrap_or(0);
        let all = cohort.concat();
        let mut lent = Lent {
            setup,
            counts: cohort.iter().map(|subject| subject.len() as u64).collect(),
            tally: Tally::default(),
            state: vec![0; 44],
            answer: vec![0; 5],
            cache: vec![0; 24 * setup.k],
            work: vec![0; 12 * largest],
            warm: vec![0; setup.effects as usize * cohort.len()],
            results: vec![0; 2 * all.len() + 3 * cohort.len()],
            observations: all,
        };
        let number = unsafe {
            ffi::curlewstand_setup(
                lent.setup,
                lent.observations.as_ptr(),
                lent.observations.len(),
                lent.counts.as_ptr(),
                lent.counts.len(),
                &mut lent.tally,
                lent.state.as_mut_ptr(),
                lent.state.len(),
                lent.answer.as_mut_ptr(),
                lent.answer.len(),
                lent.cache.as_mut_ptr(),
                lent.cache.len(),
                lent.work.as_mut_ptr(),
                lent.work.len(),
                lent.warm.as_mut_ptr(),
                lent.warm.len(),
                lent.results.as_ptr(),
                lent.results.len(),
            )
        };
        assert_eq!(number, 0);
        lent
    }

    fn objective(&mut self, theta: [f64; 2], omega: f64) -> u32 {
        let parameters = SessionParameters {
            theta: theta[0],
            theta_2: theta[1],
            omega,
            has_additive: false,
            additive: 0.,
        };
        unsafe {
            ffi::curlewstand_objective(
                self.setup,
                parameters,
                self.observations.as_ptr(),
                self.observations.len(),
                self.counts.as_ptr(),
                self.counts.len(),
                &mut self.tally,
                self.state.as_mut_ptr(),
                self.state.len(),
                self.answer.as_mut_ptr(),
                self.answer.len(),
                self.cache.as_ptr(),
                self.cache.len(),
                self.work.as_mut_ptr(),
                self.work.len(),
                self.warm.as_mut_ptr(),
                self.warm.len(),
                self.results.as_mut_ptr(),
                self.results.len(),
            )
        }
    }

    /// A reply with these observations, by one of the two calls.
    fn reply(&mut self, alone: bool, observations: &[Observation], reply: &[u64]) -> u32 {
        let call = if alone {
            ffi::curlewstand_subject_reply
        } else {
            ffi::curlewstand_reply
        };
        unsafe {
            call(
                self.setup,
                observations.as_ptr(),
                observations.len(),
                self.counts.as_ptr(),
                self.counts.len(),
                reply.as_ptr(),
                reply.len(),
                &mut self.tally,
                self.state.as_mut_ptr(),
                self.state.len(),
                self.answer.as_mut_ptr(),
                self.answer.len(),
                self.cache.as_mut_ptr(),
                self.cache.len(),
                self.work.as_mut_ptr(),
                self.work.len(),
                self.warm.as_mut_ptr(),
                self.warm.len(),
                self.results.as_mut_ptr(),
                self.results.len(),
            )
        }
    }

    fn awaits(&self) -> bool {
        self.answer[0] == 0
    }

    fn own(&self) -> Vec<Observation> {
        let first = self.state[FIRST] as usize;
        let count = self.counts[self.state[SUBJECT] as usize] as usize;
        self.observations[first..first + count].to_vec()
    }
}

/// Predictions that are linear in the individual values, now and then with a
/// fault: a row too few, a word too few, a derivative that is no number, a time
/// that changes, more rows than the budget.
fn rows(random: &mut Random, lent: &Lent, n: usize) -> Vec<u64> {
    let fault = if random.below(60) == 0 {
        random.below(5)
    } else {
        9
    };
    let effects = lent.setup.effects as usize;
    let individual = [lent.answer[3], lent.answer[4]].map(f64::from_bits);
    let n = match fault {
        0 => n - 1,
        4 => n + 40,
        _ => n,
    };
    let mut words = Vec::new();
    for row in 0..n {
        let slopes = [1. + row as f64 / 8., 0.5 + row as f64 / 16.];
        let value: f64 = (0..effects).map(|e| slopes[e] * individual[e]).sum();
        let time = row as f64 + if fault == 3 { 0.5 } else { 0. };
        words.extend([time.to_bits(), 1, value.to_bits()]);
        words.extend(slopes[..effects].iter().map(|slope| slope.to_bits()));
    }
    match fault {
        1 => words.truncate(words.len() - 1),
        2 => *words.last_mut().unwrap() = f64::NAN.to_bits(),
        _ => {}
    }
    words
}

fn session(random: &mut Random) -> Lent {
    let effects = 1 + random.below(2) as u32;
    let most = 1 + random.below(6);
    let mut subject = || -> Vec<Observation> {
        let own = [
            random.uniform(-0.6, 0.6).exp(),
            random.uniform(-0.4, 0.4).exp(),
        ];
        (0..1 + random.below(most) as usize)
            .map(|row| {
                let second = if effects == 2 {
                    own[1] * (0.5 + row as f64 / 16.)
                } else {
                    0.
                };
                Observation {
                    output: 0,
                    row,
                    value: own[0] * (1. + row as f64 / 8.) + second + random.uniform(-0.1, 0.1),
                    additive: 0.2,
                    proportional: random.uniform(0., 0.2),
                }
            })
            .collect()
    };
    let cohort: Vec<_> = (0..5).map(|_| subject()).collect();
    let subjects = 1 + random.below(5) as usize;
    let setup = SessionSetup {
        effects,
        omega_00: 0.09,
        omega_01: 0.01,
        omega_10: 0.01,
        omega_11: 0.06,
        eta_bound: 2.,
        gradient_tolerance: 1e-4,
        width: 1,
        k: 1 + random.below(200) as usize,
        has_additive: false,
        additive: 0.,
        output_budget: 100,
        max_evaluations: if random.below(10) == 0 {
            random.below(200) as u32
        } else {
            100_000
        },
    };
    Lent::open(setup, &cohort[..subjects])
}

#[test]
fn both_replies_leave_the_same() {
    let random = &mut Random::new(11);
    let mut met = [0u32; 20];
    let mut replies = 0;
    for _ in 0..12_000 {
        let mut lent = session(random);
        for _ in 0..1 + random.below(3) {
            let theta = [random.pick(&[1., 1.1]), 1.];
            let mut number = lent.objective(theta, random.pick(&[0.09, 0.2]));
            while number == 0 && lent.awaits() {
                let own = lent.own();
                let words = rows(random, &lent, own.len());
                let mut whole = lent.clone();
                let all = whole.observations.clone();
                let expected = whole.reply(false, &all, &words);
                number = lent.reply(true, &own, &words);
                assert_eq!((number, &lent), (expected, &whole));
                replies += 1;
            }
            met[number as usize] += 1;
            // nothing is awaited now
            let mut after = lent.clone();
            assert_eq!(after.reply(true, &lent.own(), &[]), 19);
            assert_eq!(after.answer[..3], [2, 19, 0]);
            after.answer.clone_from(&lent.answer);
            assert_eq!(after, lent);
        }
    }
    assert!(replies > 1_000_000, "{replies} replies");
    for number in [0, 6, 8, 9, 10, 11, 17] {
        assert!(met[number] > 0, "{number} was not met: {met:?}");
    }
}

/// What is wrong with a reply, the number that it gets, and of 4 the observation.
type Wrong = (fn(&mut Lent, &mut Vec<Observation>), u32, Option<u64>);

const WRONG: [Wrong; 26] = [
    (|_, own| own.truncate(1), 1, None),
    (|_, own| own.push(own[0]), 1, None),
    (|_, own| own.clear(), 1, None),
    (
        |lent, _| lent.counts[lent.state[SUBJECT] as usize] = 0,
        1,
        None,
    ),
    (|lent, _| lent.setup.effects = 3, 1, None),
    (|lent, _| lent.counts.resize(4097, 1), 1, None),
    (
        |lent, _| lent.state[3] = 1_048_576f64.next_up().to_bits(),
        2,
        None,
    ),
    (|lent, _| lent.setup.eta_bound = 16f64.next_up(), 3, None),
    (|lent, _| lent.setup.width = 65, 3, None),
    (|lent, _| lent.setup.k = 100_001, 3, None),
    (|_, own| own[0].value = f64::NAN, 4, Some(0)),
    (|_, own| own[1].additive = -1., 4, Some(1)),
    (|_, own| own[1].proportional = f64::INFINITY, 4, Some(1)),
    (|_, own| own[0].output = 1, 4, Some(0)),
    (|lent, _| lent.work.truncate(12 * 2 - 1), 5, None),
    (|lent, _| lent.cache.truncate(24 * 64 - 1), 5, None),
    (|lent, _| lent.warm.truncate(2), 5, None),
    (|lent, _| lent.results.truncate(2 * 2 + 3 * 3 - 1), 5, None),
    (|lent, _| lent.state[0] = 2, 19, None),
    (|lent, _| lent.state[SUBJECT] = 3, 19, None),
    (|lent, _| lent.state[FIRST] = 99_999, 19, None),
    (|lent, _| lent.state[EFFECTS] = 0, 19, None),
    (|lent, _| lent.state[EFFECTS] = 3, 19, None),
    (
        |lent, _| lent.tally.cached_rows = lent.setup.k + 1,
        19,
        None,
    ),
    (
        |lent, _| lent.state[NEXT_ROW] = lent.state[FIRST_ROW] + lent.setup.k as u64 + 1,
        19,
        None,
    ),
    (|lent, _| lent.state[NEXT_ROW] = 1_000_000, 19, None),
];

#[test]
fn what_is_not_right_is_refused_and_alters_nothing() {
    let one = |value| Observation {
        output: 0,
        row: 0,
        value,
        additive: 0.2,
        proportional: 0.,
    };
    let two = |value| {
        vec![
            one(value),
            Observation {
                row: 1,
                ..one(1.2 * value)
            },
        ]
    };
    let random = &mut Random::new(3);
    let setup = SessionSetup {
        effects: 1,
        k: 64,
        max_evaluations: 1000,
        ..session(random).setup
    };
    let mut lent = Lent::open(setup, &[two(1.1), two(0.9), two(1.3)]);
    assert_eq!(lent.objective([1., 1.], 0.09), 0);
    let mut tried = 0;
    while lent.awaits() {
        for (break_it, number, observation) in WRONG {
            let (mut broken, mut own) = (lent.clone(), lent.own());
            break_it(&mut broken, &mut own);
            let mut after = broken.clone();
            assert_eq!(after.reply(true, &own, &[0; 8]), number);
            let place = match observation {
                Some(n) => [2, number.into(), 2, lent.state[SUBJECT], n],
                None => [2, number.into(), 0, 0, 0],
            };
            assert_eq!(after.answer, place);
            after.answer.clone_from(&broken.answer);
            assert_eq!(after, broken);
            tried += 1;
        }
        // other subjects' observations are not looked at
        let own = lent.own();
        let reply = rows(&mut Random::new(0), &lent, own.len());
        lent.observations
            .iter_mut()
            .for_each(|other| other.value = f64::NAN);
        assert_eq!(lent.reply(true, &own, &reply), 0);
        lent.observations = [two(1.1), two(0.9), two(1.3)].concat();
    }
    assert_eq!(lent.answer[0], 1);
    assert!(tried > 22 * 50);
}
