//! A session led by the original: its script, and what each call is to answer.
//! Questions, ends and places are the original's; 19 and 1 to 5 are document
//! 01's questions in plain Rust.

use crate::session_memory::Memory;
use crate::session_met::Met;
use crate::session_original::{won_later, Original, Ran};
use crate::session_plan::{Objective, Plan, Reply, Step, Stray};
use crate::session_rules::{self, Standing};
use crate::session_words::{refused, Call, Change, Expected, Lent, Script};
use oracle::session::{Predicted, Question, Refusal};
use std::rc::Rc;

/// A session as a script with its answers.
pub struct Told {
    pub script: Vec<u64>,
    pub expected: Vec<Expected>,
    pub met: Met,
    /// The evaluations that each objective had come to at its end.
    pub calls: Vec<usize>,
}

pub fn tell(plan: &Plan) -> Told {
    let mut telling = Telling::new(plan);
    for step in &plan.steps {
        telling.step(step);
    }
    telling.met.sessions += 1;
    telling.met.calls += telling.expected.len() as u64;
    Told {
        script: telling.script.words(),
        expected: telling.expected,
        met: telling.met,
        calls: telling.calls,
    }
}

struct Telling {
    plan: Rc<Plan>,
    lent: Lent,
    script: Script,
    expected: Vec<Expected>,
    memory: Memory,
    standing: Standing,
    /// There once a setup was accepted, until an objective is left in its midst.
    original: Option<Original>,
    met: Met,
    calls: Vec<usize>,
}

impl Telling {
    fn new(plan: &Plan) -> Self {
        let observations = plan
            .subjects
            .iter()
            .flat_map(|one| one.observations.clone());
        let lent = Lent {
            setup: plan.setup.clone(),
            lengths: plan.lengths,
            counts: plan.counts(),
            observations: observations.collect(),
        };
        Telling {
            plan: Rc::new(plan.clone()),
            script: Script::begin(&lent),
            lent,
            expected: Vec::new(),
            memory: Memory::at_first(),
            standing: Standing::default(),
            original: None,
            met: Met::default(),
            calls: Vec::new(),
        }
    }

    fn step(&mut self, step: &Step) {
        match step {
            Step::Setup => self.setup(),
            Step::Objective(objective) => self.objective(objective),
            Step::Warm(etas) => self.warm(etas),
            Step::Stray(stray) => self.stray(stray),
        }
    }

    /// A call that is refused with 1 to 5 or 19 and so alters nothing.
    fn unaltered(&mut self, call: &Call, refusal: Refusal, lent: &Lent, tally: [u64; 2]) {
        self.script.call(call);
        self.met.refused[refusal.number as usize] += 1;
        let told = self.memory.unaltered(refused(refusal), lent.lengths, tally);
        self.expected.push(told);
    }

    /// With what is lent as it is, the refusal by 1 to 5 or 19.
    fn is_refused(&mut self, call: &Call) -> bool {
        let lent = self.lent.clone();
        let rows = self.memory.cached_rows;
        let refusal = session_rules::refusal(call, &self.standing, rows, &lent);
        if let Some(refusal) = refusal {
            self.unaltered(call, refusal, &lent, self.memory.tally());
        }
        refusal.is_some()
    }

    fn served(&mut self, words: [u64; 5]) {
        let told = self.memory.served(words, self.lent.lengths);
        self.expected.push(told);
    }

    fn setup(&mut self) {
        let again = self.original.is_some();
        if self.is_refused(&Call::Setup) {
            self.met.count_if(!again, "setups refused");
            return;
        }
        self.met.count_if(again, "sessions begun anew");
        self.met.count_if(
            self.standing.awaits,
            "sessions begun anew amid an objective",
        );
        self.script.call(&Call::Setup);
        self.memory.open(self.lent.lengths);
        self.standing = Standing::default();
        self.original = Some(Original::new(&self.plan));
        self.served([1, 0, 0, 0, 0]);
        self.count_setup();
    }

    fn count_setup(&mut self) {
        let (setup, lent, met) = (&self.lent.setup, &self.lent, &mut self.met);
        let largest = lent.counts.iter().max().map_or(0, |count| *count as usize);
        met.count_if(setup.eta_bound == 16., "the largest bound of eta");
        met.count_if(setup.eta_bound == 1. / 1024., "the least bound of eta");
        let omega = setup.omega[0];
        met.count_if(omega == 1048576., "the largest omega");
        met.count_if(omega == 1. / 1048576., "the least omega");
        met.count_if(setup.width == 1, "width 1");
        met.count_if(setup.width == 64, "width 64");
        met.count_if(setup.k == 1, "K 1");
        met.count_if(largest as u64 > setup.k, "subjects with more than K rows");
        let (exact, subjects) = (lent.lengths, lent.counts.len());
        met.count_if(exact.cache as u64 == 24 * setup.k, "kept words just enough");
        met.count_if(exact.work == 12 * largest, "work words just enough");
        let warm = setup.effects as usize * subjects;
        met.count_if(exact.warm == warm, "warm words just enough");
        let results = 2 * lent.observations.len() + 3 * subjects;
        met.count_if(exact.results == results, "results just enough");
    }

    /// Only between objectives.
    fn warm(&mut self, etas: &[f64]) {
        let Some(original) = &mut self.original else {
            return;
        };
        let etas = &etas[..etas.len().min(self.lent.lengths.warm)];
        let words: Vec<u64> = etas.iter().map(|eta| eta.to_bits()).collect();
        self.script.warm(&words);
        self.memory.warm[..words.len()].copy_from_slice(&words);
        let effects = self.plan.effects();
        let subjects = self.plan.subjects.len();
        for (subject, words) in self.memory.warm.chunks(effects).take(subjects).enumerate() {
            let second = words.get(1).copied().unwrap_or(0);
            original.set_warm(subject, [words[0], second].map(f64::from_bits));
        }
        self.met.count("warm starts set");
    }

    /// Told only where the call is refused: what a host comes to that changes
    /// what is lent and is served is outside all sessions.
    fn stray(&mut self, stray: &Stray) {
        if !self.stays_at_the_question(&stray.change) {
            return;
        }
        let lent = self.lent.changed(&stray.change);
        let own = self.memory.tally();
        let tally = match stray.change {
            Change::Tally(tally) => tally,
            _ => own,
        };
        let rows = tally[1] as usize;
        let Some(refusal) = session_rules::refusal(&stray.call, &self.standing, rows, &lent) else {
            return;
        };
        self.script.lend(&stray.change, &lent, tally);
        self.unaltered(&stray.call, refusal, &lent, tally);
        let own_lent = self.lent.clone();
        self.script.lend(&stray.change, &own_lent, own);
        self.count_stray(stray, refusal);
    }

    /// With another bound, omega or a larger tolerance a search in its midst may
    /// be elsewhere than at the question that was asked, which is a 19 of its
    /// own; no session comes to it.
    fn stays_at_the_question(&self, change: &Change) -> bool {
        let (Change::Setup(other), Some(given)) = (change, self.standing.parameters) else {
            return true;
        };
        let own = &self.lent.setup;
        let omega = own.effects == 2 || own.omega[0] == given.omega;
        !self.standing.awaits
            || own.eta_bound == other.eta_bound
                && own.omega.map(f64::to_bits) == other.omega.map(f64::to_bits)
                && (other.gradient_tolerance.is_nan()
                    || other.gradient_tolerance <= own.gradient_tolerance)
                && (own.effects == other.effects || omega)
    }

    fn count_stray(&mut self, stray: &Stray, refusal: Refusal) {
        let name = match (&stray.call, self.standing.awaits) {
            (Call::Setup, true) => "setups refused amid an objective",
            (Call::Setup, false) => "setups refused between objectives",
            (Call::Objective(_), true) => "objectives refused amid another",
            (Call::Objective(_), false) => "objectives refused between others",
            (Call::Reply(_), true) => "replies refused and given again",
            (Call::Reply(_), false) => "replies that none awaited",
            (Call::Failure, true) => "failures refused and given again",
            (Call::Failure, false) => "failures that none awaited",
        };
        self.met.count(name);
        let over = matches!(stray.change, Change::Tally(_)) && refusal.number == 19;
        self.met.count_if(over, "more rows kept than K");
    }

    fn objective(&mut self, objective: &Objective) {
        let call = Call::Objective(objective.parameters);
        if self.is_refused(&call) {
            return;
        }
        let Some(mut original) = self.original.take() else {
            return;
        };
        let subjects = self.plan.subjects.len();
        let warm: Vec<[f64; 2]> = (0..subjects).map(|one| original.now().warm(one)).collect();
        let ran = original.run(objective, subjects);
        self.script.call(&call);
        self.standing = Standing {
            awaits: true,
            parameters: Some(objective.parameters),
            ..Standing::default()
        };
        let mut passed = 0;
        if !self.answer_all(objective, &ran, &mut passed) {
            self.met.count("objectives left");
            return;
        }
        self.pass(&ran, &mut passed, ran.passed);
        self.end(&ran, &original);
        self.count_objective(&ran);
        if self.plan.effects() == 2 {
            let later = won_later(&self.plan, &ran, &warm, objective.parameters.theta);
            self.met.add_to("modes won by a later start", later as u64);
        }
        self.calls.push(original.now().calls());
        self.original = Some(original);
    }

    /// Each question with its reply, and what the host does in between; unless
    /// it goes no further.
    fn answer_all(&mut self, objective: &Objective, ran: &Ran, passed: &mut usize) -> bool {
        for (number, (question, reply)) in ran.asked.iter().enumerate() {
            self.pass(ran, passed, question.subject);
            self.ask(question);
            let strays = objective.strays.iter().filter(|(at, _)| *at == number);
            strays.for_each(|(_, stray)| self.stray(stray));
            if objective.left_at == Some(number) {
                return false;
            }
            let evicted = self.take(ran, number, reply);
            self.met.add_to("evictions", evicted as u64);
        }
        true
    }

    /// The subjects before this one are past 17.
    fn pass(&mut self, ran: &Ran, passed: &mut usize, subject: usize) {
        while *passed < subject {
            let mode = &ran.modes[*passed];
            let first = self.first(*passed);
            let effects = self.plan.effects();
            self.memory.store_warm(effects, *passed, mode.best.eta);
            let subjects = self.plan.subjects.len();
            self.memory.store_results(subjects, *passed, first, mode);
            *passed += 1;
        }
    }

    /// The number of a subject's first observation among all.
    fn first(&self, subject: usize) -> usize {
        let before = &self.plan.subjects[..subject];
        before.iter().map(|one| one.observations.len()).sum()
    }

    fn ask(&mut self, question: &Question) {
        self.memory.ask(self.lent.lengths);
        self.standing.subject = question.subject;
        self.standing.first = self.first(question.subject);
        let [[a, b], [c, d]] = [question.eta, question.individual].map(|by| by.map(f64::to_bits));
        self.served([0, a, b, c, d]);
    }

    /// The reply to a question. It is the last one that an evaluation's refusal
    /// is about; any other is kept. Gives how many had to go for it.
    fn take(&mut self, ran: &Ran, number: usize, reply: &Reply) -> usize {
        let call = match reply {
            Reply::Words(words) => Call::Reply(words.clone()),
            Reply::Failure => Call::Failure,
        };
        self.script.call(&call);
        self.count_reply(reply);
        let is_last = number + 1 == ran.asked.len();
        let refused = matches!(&ran.end, Err(refusal) if (8..=12).contains(&refusal.number));
        if is_last && refused {
            return 0;
        }
        let rows = self.plan.subjects[self.standing.subject].observations.len();
        let k = self.plan.setup.k as usize;
        self.memory.keep(rows, k, self.lent.lengths)
    }

    fn count_reply(&mut self, reply: &Reply) {
        let Reply::Words(words) = reply else {
            self.met.count("failures");
            return;
        };
        let (row_words, budget) = (self.plan.row_words(), self.plan.setup.output_budget);
        let (rows, rest) = (words.len() / row_words, words.len() % row_words);
        self.met
            .count_if(rest > 0, "replies that are not whole rows");
        self.met.count_if(words.is_empty(), "empty replies");
        let values = (rows * (row_words - 2)) as u64;
        self.met
            .count_if(values == budget, "replies just within the budget");
        let by_a_row = values > budget && values - row_words as u64 + 2 <= budget;
        self.met.count_if(by_a_row, "replies a row over the budget");
    }

    fn end(&mut self, ran: &Ran, original: &Original) {
        let subjects = self.plan.subjects.len();
        let words = match &ran.end {
            Ok(objective) => {
                let squares = objective.subjects.iter().map(|one| one.eta[0] * one.eta[0]);
                let sum = squares.fold(0., |sum, square| sum + square);
                let omega = self.standing.parameters.map_or(1., |given| given.omega);
                let shrinkage = 1. - sum / subjects as f64 / omega;
                let one_effect = self.plan.effects() == 1;
                let shrinkage = if one_effect { shrinkage.to_bits() } else { 0 };
                [1, objective.value.to_bits(), shrinkage, 0, 0]
            }
            Err(refusal) => {
                self.met.refused[refusal.number as usize] += 1;
                if refusal.number == 17 {
                    let warm = original.now().warm(ran.passed);
                    self.memory
                        .store_warm(self.plan.effects(), ran.passed, warm);
                }
                self.memory.calls += (refusal.number == 7) as usize;
                refused(*refusal)
            }
        };
        self.memory.end(self.lent.lengths);
        let ended_with = ran.passed.min(subjects - 1);
        self.standing.awaits = false;
        self.standing.subject = ended_with;
        self.standing.first = self.first(ended_with);
        assert_eq!(self.memory.calls, original.now().calls());
        assert_eq!(self.memory.cached_rows, original.now().cached_rows());
        self.served(words);
    }

    fn count_objective(&mut self, ran: &Ran) {
        let most = self.plan.setup.max_evaluations as usize;
        let calls = self.memory.calls;
        let met = &mut self.met;
        let name = match self.plan.setup.effects {
            1 => "finished with one effect",
            _ => "finished with two effects",
        };
        met.count_if(ran.end.is_ok(), name);
        let without = ran.end.is_ok() && ran.asked.is_empty();
        met.count_if(without, "finished without a question");
        met.count_if(
            without && calls == most,
            "finished without a question at the limit",
        );
        met.count_if(
            ran.end.is_ok() && calls == most,
            "finished with the last evaluation",
        );
        let first_grid = if self.plan.setup.effects == 1 { 17 } else { 7 };
        for subject in 0..ran.passed {
            let asked = ran.asked.iter().filter(|asked| asked.0.subject == subject);
            met.count_if(asked.count() < first_grid, "subjects with kept points");
        }
        if let Err(refusal) = &ran.end {
            self.count_refusal(*refusal, ran);
        }
    }

    fn count_refusal(&mut self, refusal: Refusal, ran: &Ran) {
        let (met, most) = (&mut self.met, self.plan.setup.max_evaluations);
        met.count_if(refusal.number == 6 && most == 0, "no evaluation allowed");
        met.count_if(ran.passed > 0, "refused after subjects that passed");
        let row_12 = refusal.number == 12 && refusal.observation.is_some();
        met.count_if(row_12, "12 of a row");
        met.count_if(refusal.number == 12 && !row_12, "12 of a sum");
        if refusal.number == 17 {
            let mode = ran.modes.last().expect("17 comes after a mode");
            let mut pairs = mode.population_rows.iter().zip(&mode.best.rows);
            let unlike = |(a, b): &(&Predicted, &Predicted)| a.time != b.time || a.pre != b.pre;
            let (a, b) = pairs.find(unlike).expect("17 has its cause");
            met.count(if a.time != b.time {
                "17 by a time"
            } else {
                "17 by a side"
            });
        }
    }
}
