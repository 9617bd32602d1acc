//! One session on both sides. The original runs each objective whole; ours is
//! then led through the same questions with the same replies, and every answer
//! of it is held to the original's. 19 and 1 to 5, which the original is not
//! asked, are document 01's questions in plain Rust
//! (`layer_comparison::session_rules`).

use crate::counts::{Counts, OfEffects, CEILINGS};
use crate::difference::{parted, same, same_as, same_results, same_tally, Difference};
use crate::expected::{Expected, Results};
use crate::ours::{lent, open, opened, parameters, seen};
use crate::said::Said;
use crate::shown::{given, list, name, rows, words};
use curlewstand::Session;
use layer_comparison::compare::word_of;
use layer_comparison::session_original::{Original, Ran};
use layer_comparison::session_plan::{Objective, Plan, Reply, Step, Stray};
use layer_comparison::session_rules::{self, Standing};
use layer_comparison::session_words::{Call, Change, Lent};
use oracle::session::{Question, Refusal};
use std::rc::Rc;

/// Alters a reply on our side alone, so that the comparison itself can be
/// tried. It is given the number of the objective, the question and the words.
pub type Alter = fn(usize, &Question, &mut [u64]);

/// What a session came to.
pub struct Outcome {
    pub difference: Option<Difference>,
    /// Whatever it came to, until a difference.
    pub counts: Counts,
    /// The tally's evaluations at the end of each objective.
    pub evaluations: Vec<usize>,
    /// What was said so far, where that was wanted.
    pub notes: Vec<String>,
}

/// Runs a session on both sides until its end or a difference.
pub fn run(plan: &Plan, alter: Option<Alter>) -> Outcome {
    Pair::new(plan, alter, false).run()
}

/// The same, with notes of what was said.
pub fn follow(plan: &Plan, alter: Option<Alter>) -> Outcome {
    Pair::new(plan, alter, true).run()
}

struct Pair {
    plan: Rc<Plan>,
    lent: Lent,
    alter: Option<Alter>,
    /// There once a setup was accepted.
    ours: Option<Session>,
    /// The same, until an objective is left in its midst.
    original: Option<Original>,
    standing: Standing,
    expected: Expected,
    objectives: usize,
    outcome: Outcome,
    takes_notes: bool,
}

impl Pair {
    fn new(plan: &Plan, alter: Option<Alter>, takes_notes: bool) -> Self {
        let observations = plan.subjects.iter().flat_map(|one| &one.observations);
        let lent = lent(&plan.setup, plan.counts(), observations.copied().collect());
        Pair {
            plan: Rc::new(plan.clone()),
            lent,
            alter,
            ours: None,
            original: None,
            standing: Standing::default(),
            expected: Expected::default(),
            objectives: 0,
            outcome: Outcome {
                difference: None,
                counts: Counts::default(),
                evaluations: Vec::new(),
                notes: Vec::new(),
            },
            takes_notes,
        }
    }

    fn run(mut self) -> Outcome {
        let plan = self.plan.clone();
        for step in &plan.steps {
            let stepped = match step {
                Step::Setup => self.setup(),
                Step::Objective(objective) => self.objective(objective),
                Step::Warm(etas) => self.warm(etas),
                Step::Stray(stray) => self.stray(stray),
            };
            if let Err(difference) = stepped {
                self.outcome.difference = Some(difference);
                return self.outcome;
            }
        }
        let objectives = self.objectives as u64;
        let counts = self.counts();
        counts.sessions = 1;
        counts.largest.objectives = objectives;
        counts.largest.subjects = plan.subjects.len() as u64;
        counts.largest.observations = plan.counts().iter().sum();
        counts.largest.kept_rows = plan.setup.k;
        self.outcome
    }

    fn counts(&mut self) -> &mut OfEffects {
        self.outcome.counts.of(self.plan.effects())
    }

    fn note(&mut self, text: impl FnOnce() -> String) {
        if self.takes_notes {
            self.outcome.notes.push(text());
        }
    }

    fn setup(&mut self) -> Result<(), Difference> {
        self.note(|| "setup".into());
        let refusal = session_rules::refusal(&Call::Setup, &self.standing, 0, &self.lent);
        let ours = open(&self.lent);
        same("setup", judged(refusal, Said::Accepted), opened(&ours))?;
        self.standing = Standing::default();
        self.ours = ours.and_then(Result::ok);
        self.original = self.ours.is_some().then(|| Original::new(&self.plan));
        self.expected = Expected::open(&self.lent.counts);
        if let Some(refusal) = refusal {
            self.counts().setups_refused[refusal.number as usize] += 1;
        }
        Ok(())
    }

    /// Only between objectives. The first words of the warm starts are set.
    fn warm(&mut self, etas: &[f64]) -> Result<(), Difference> {
        let (Some(ours), Some(original)) = (&mut self.ours, &mut self.original) else {
            return Ok(());
        };
        let effects = self.plan.effects();
        let subjects = self.plan.subjects.len();
        for (subject, etas) in etas.chunks(effects).take(subjects).enumerate() {
            let mut warm = original.now().warm(subject);
            warm[..etas.len()].copy_from_slice(etas);
            original.set_warm(subject, warm);
            let set = ours.set_warm_start(subject, warm);
            same("a warm start set", "Ok(())", format!("{set:?}").as_str())?;
        }
        self.note(|| format!("warm starts set: {}", list(etas)));
        self.counts().warm_starts += 1;
        self.hold_warm_starts()
    }

    /// A call that is to be refused and to alter nothing. What our `Session`
    /// cannot be told, and what would be served, is passed over.
    fn stray(&mut self, stray: &Stray) -> Result<(), Difference> {
        if let Call::Setup = stray.call {
            return self.stray_setup(&stray.change);
        }
        let rows = self.expected.cached_rows;
        let refusal = session_rules::refusal(&stray.call, &self.standing, rows, &self.lent);
        let (Some(refusal), Change::Nothing) = (refusal, &stray.change) else {
            return Ok(());
        };
        let Some(ours) = &mut self.ours else {
            return Ok(());
        };
        let before = seen(ours);
        let said: Said = match &stray.call {
            Call::Objective(given) => match parameters(given, self.plan.effects()) {
                Some(given) => ours.begin(given).into(),
                None => return Ok(()),
            },
            Call::Reply(words) => ours.reply_words(words).into(),
            _ => ours.fail().into(),
        };
        let after = seen(ours);
        self.note(|| format!("a call that is not due: {}: {said}", name(&stray.call)));
        self.counts().strays += 1;
        same("a call that is not due", Said::from(refusal), said)?;
        same_as("what a refused call leaves", &before, &after)
    }

    /// Another setup, or other observations, that are refused from the start.
    fn stray_setup(&mut self, change: &Change) -> Result<(), Difference> {
        let counts = self.lent.counts.clone();
        let other = match change {
            Change::Setup(setup) => lent(setup, counts, self.lent.observations.clone()),
            Change::Observations(all) if all.len() == self.lent.observations.len() => {
                lent(&self.lent.setup, counts, all.clone())
            }
            _ => return Ok(()),
        };
        let refusal = session_rules::refusal(&Call::Setup, &self.standing, 0, &other);
        let (Some(refusal), Some(ours)) = (refusal, open(&other)) else {
            return Ok(());
        };
        self.note(|| format!("another setup: {:?}", other.setup));
        self.counts().setups_refused[refusal.number as usize] += 1;
        same("another setup", Said::from(refusal), opened(&Some(ours)))
    }

    fn objective(&mut self, objective: &Objective) -> Result<(), Difference> {
        let call = Call::Objective(objective.parameters);
        let rows = self.expected.cached_rows;
        let refusal = session_rules::refusal(&call, &self.standing, rows, &self.lent);
        if let Some(refusal) = refusal {
            return self.refused_objective(objective, refusal);
        }
        let effects = self.plan.effects();
        let Some(told) = parameters(&objective.parameters, effects) else {
            return Ok(());
        };
        let (Some(mut ours), Some(mut original)) = (self.ours.take(), self.original.take()) else {
            return Ok(());
        };
        self.note(|| format!("objective: {}", given(&objective.parameters, effects)));
        let calls_before = self.expected.calls;
        let ran = original.run(objective, self.plan.subjects.len());
        let begun = ours.begin(told);
        self.standing.awaits = true;
        self.standing.parameters = Some(objective.parameters);
        let led = self.lead(objective, &ran, ours, begun.into());
        self.objectives += 1;
        self.counts().objectives += 1;
        if !led? {
            self.counts().left += 1;
            return Ok(());
        }
        self.standing.awaits = false;
        self.original = Some(original);
        self.hold_end(objective, &ran)?;
        self.count(&ran, calls_before)
    }

    /// An objective that 19 or 1 to 5 refuses.
    fn refused_objective(
        &mut self,
        objective: &Objective,
        refusal: Refusal,
    ) -> Result<(), Difference> {
        let effects = self.plan.effects();
        let told = parameters(&objective.parameters, effects);
        let (Some(ours), Some(told)) = (&mut self.ours, told) else {
            return Ok(());
        };
        let before = seen(ours);
        let said: Said = ours.begin(told).into();
        let after = seen(ours);
        self.note(|| {
            format!(
                "objective: {}: {said}",
                given(&objective.parameters, effects)
            )
        });
        self.objectives += 1;
        let counts = self.counts();
        counts.objectives += 1;
        counts.refused[refusal.number as usize] += 1;
        same("a refused objective", Said::from(refusal), said)?;
        same_as("what a refused objective leaves", &before, &after)
    }

    /// Our side through the original's questions and replies to its end. False
    /// where the host goes no further.
    fn lead(
        &mut self,
        objective: &Objective,
        ran: &Ran,
        mut ours: Session,
        begun: Said,
    ) -> Result<bool, Difference> {
        let mut said = begun;
        for (number, (question, reply)) in ran.asked.iter().enumerate() {
            self.expected.calls += 1;
            same(format_args!("question {number}"), question.into(), said)?;
            let what = format_args!("tally at question {number}");
            same_tally(what, &self.expected, &ours)?;
            self.note(|| format!("{number:5}  {}", Said::from(question)));
            self.ours = Some(ours);
            for (_, stray) in objective.strays.iter().filter(|(at, _)| *at == number) {
                self.stray(stray)?;
            }
            if objective.left_at == Some(number) {
                self.note(|| "the host goes no further".into());
                return Ok(false);
            }
            ours = self.ours.take().expect("a stray leaves the session");
            said = self.answer(&mut ours, question, reply);
            self.keep(ran, number, question.subject);
        }
        let end = match &ran.end {
            Ok(objective) => Said::Finished(word_of(objective.value)),
            Err(refusal) => Said::from(*refusal),
        };
        self.ours = Some(ours);
        same("the end", end, said)?;
        self.note(|| format!("{end}"));
        Ok(true)
    }

    fn answer(&mut self, ours: &mut Session, question: &Question, reply: &Reply) -> Said {
        self.counts().evaluations += 1;
        let Reply::Words(words) = reply else {
            self.note(|| "       the simulator fails".into());
            return ours.fail().into();
        };
        let row_words = self.plan.row_words();
        self.note(|| rows(words, row_words));
        let Some(alter) = self.alter else {
            return ours.reply_words(words).into();
        };
        let mut altered = words.clone();
        alter(self.objectives, question, &mut altered);
        if altered != *words {
            self.note(|| format!("       ours is told instead\n{}", rows(&altered, row_words)));
        }
        ours.reply_words(&altered).into()
    }

    /// The last reply is the one that an evaluation's refusal is about; any
    /// other is kept.
    fn keep(&mut self, ran: &Ran, number: usize, subject: usize) {
        let is_last = number + 1 == ran.asked.len();
        let refused = matches!(&ran.end, Err(refusal) if (8..=12).contains(&refusal.number));
        if is_last && refused {
            return;
        }
        let rows = self.plan.subjects[subject].observations.len();
        let gone = self.expected.keep(rows, self.plan.setup.k as usize);
        self.counts().dropped_rows += gone as u64;
    }

    /// Tally, warm starts and results after an objective has ended.
    fn hold_end(&mut self, objective: &Objective, ran: &Ran) -> Result<(), Difference> {
        let original = self.original.as_ref().expect("it has ended");
        let now = original.now();
        assert_eq!(self.expected.cached_rows, now.cached_rows());
        // a 7 is counted although nothing was asked
        self.expected.calls = now.calls();
        match &ran.end {
            Ok(objective) => self.expected.finish(objective),
            Err(_) => self.expected.pass(&ran.modes[..ran.passed]),
        }
        self.hold_warm_starts()?;
        let ours = self.ours.as_ref().expect("it has ended");
        same_tally("tally at the end", &self.expected, ours)?;
        let expected = &self.expected.results;
        same_results(expected, &Results::of(ours))?;
        let passed = expected.first(ran.passed, &self.lent.counts);
        same_results(&passed, &Results::told(ours))?;
        let is_told = ran.end.is_ok() && self.plan.effects() == 1;
        let shrinkage = is_told.then(|| shrinkage(expected, objective.parameters.omega));
        let words = [shrinkage, ours.shrinkage()].map(|one| one.map(word_of));
        same_as("shrinkage", &words[0], &words[1])
    }

    fn hold_warm_starts(&self) -> Result<(), Difference> {
        let (Some(ours), Some(original)) = (&self.ours, &self.original) else {
            return Ok(());
        };
        for subject in 0..self.plan.subjects.len() {
            let expected = original.now().warm(subject).map(word_of);
            let said = ours.warm_start(subject).map(|warm| warm.map(word_of));
            if said != Some(expected) {
                let what = format!("the warm start of subject {subject}");
                return Err(parted(
                    what,
                    words(&expected),
                    said.map_or("none".into(), |said| words(&said)),
                ));
            }
        }
        Ok(())
    }

    fn count(&mut self, ran: &Ran, calls_before: usize) -> Result<(), Difference> {
        let number = ran.end.as_ref().err().map(|refusal| refusal.number);
        let rise = self.expected.calls - calls_before;
        let rises = self.rises_in_searches(ran);
        self.outcome.evaluations.push(self.expected.calls);
        let ceiling = CEILINGS[self.plan.effects() - 1];
        let subjects = self.lent.counts.len();
        let observations = self.lent.observations.len();
        let counts = self.counts();
        match number {
            None => counts.finish(subjects, observations),
            Some(number) => counts.refused[number as usize] += 1,
        }
        let asked: usize = ran.asked_for.iter().sum();
        // a 6 is asked for, but neither found nor counted
        let not_found = rise + (number == Some(6)) as usize;
        counts.found += (asked - not_found) as u64;
        let largest = &mut counts.largest;
        let most = |numbers: &[usize]| numbers.iter().max().map_or(0, |most| *most as u64);
        largest.asked = largest.asked.max(most(&ran.asked_for));
        largest.rise_in_search = largest.rise_in_search.max(most(&rises));
        largest.rise_in_objective = largest.rise_in_objective.max(rise as u64);
        if largest.asked <= ceiling {
            return Ok(());
        }
        let asked = format!("{}", largest.asked);
        let what = "evaluations asked for by one search";
        Err(parted(what, asked, format!("at most {ceiling}")))
    }

    /// By how much the tally's evaluations rose for each subject: its
    /// questions, and a 7, which is counted although nothing was asked.
    fn rises_in_searches(&self, ran: &Ran) -> Vec<usize> {
        let mut rises = vec![0; self.plan.subjects.len()];
        for (question, _) in &ran.asked {
            rises[question.subject] += 1;
        }
        if let Err(Refusal { number: 7, .. }) = ran.end {
            rises[ran.passed] += 1;
        }
        rises
    }
}

/// 1 - ((sum of eta²) / n) / omega, summed in order.
fn shrinkage(results: &Results, omega: f64) -> f64 {
    let etas = results.estimates.iter().map(|one| f64::from_bits(one[0]));
    let squares = etas.fold(0., |sum, eta| sum + eta * eta);
    1. - squares / results.estimates.len() as f64 / omega
}

fn judged(refusal: Option<Refusal>, otherwise: Said) -> Said {
    refusal.map_or(otherwise, Said::from)
}
