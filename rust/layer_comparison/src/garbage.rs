//! Calls that must stand anything: sessions led in any order, with words altered here
//! and there, and calls over words of any kind. After each call all of
//! `garbage_checks` is held, and each is made twice, on copies of the same words.
//!
//! An episode is a session with its own seed; the calls of the next one have the seed
//! that follows. So a seed and the number of a call tell all that there is to repeat.

use crate::garbage_checks::{alike, ended, End, AWAITS, FIRST, STATE_WORDS, SUBJECT};
use crate::garbage_draws::{alter, garbage, model, parameters, reply, session, Model};
use crate::garbage_memory::*;
use crate::random::Random;
use std::fmt;
use std::sync::atomic::{AtomicBool, AtomicU64, Ordering};
use std::sync::Arc;
use std::thread;
use std::time::Duration;

/// What was met, counted, so that a run which no longer comes to something can fail.
#[derive(Clone, Debug, Default, PartialEq, Eq)]
pub struct Met {
    pub calls: u64,
    /// Of these over words of any kind, and over a session with something altered.
    pub garbage: u64,
    pub altered: u64,
    pub opened: u64,
    pub asked: u64,
    /// Objectives finished with one effect and with two.
    pub finished: [u64; 2],
    /// Refusals by their number.
    pub refused: [u64; 20],
    /// Shrinkages that were told, and that were not.
    pub shrunk: u64,
    pub not_shrunk: u64,
}

impl Met {
    fn count(&mut self, end: End, effects: u32) {
        self.calls += 1;
        match end {
            End::Opened => self.opened += 1,
            End::Asked => self.asked += 1,
            End::Finished => self.finished[usize::from(effects == 2)] += 1,
            End::Refused(number) => self.refused[number as usize] += 1,
            End::Shrunk(true) => self.shrunk += 1,
            End::Shrunk(false) => self.not_shrunk += 1,
        }
    }

    /// Each of these was met so often at least: every end, and every number but 15.
    pub fn hold(&self, least: u64) {
        let counts = [
            self.garbage,
            self.altered,
            self.opened,
            self.asked,
            self.finished[0],
            self.finished[1],
            self.shrunk,
            self.not_shrunk,
        ];
        let refused = (1..20)
            .filter(|number| *number != 15)
            .map(|number| self.refused[number]);
        let rarest = counts.into_iter().chain(refused).min();
        assert!(rarest >= Some(least), "not enough was met: {self}");
    }
}

impl fmt::Display for Met {
    fn fmt(&self, f: &mut fmt::Formatter<'_>) -> fmt::Result {
        let Met {
            calls,
            garbage,
            altered,
            opened,
            asked,
            ..
        } = self;
        writeln!(f, "{calls} calls, each made twice")?;
        writeln!(f, "  over words of any kind      {garbage:>12}")?;
        writeln!(f, "  with something altered      {altered:>12}")?;
        writeln!(f, "came to")?;
        writeln!(f, "  a session opened            {opened:>12}")?;
        writeln!(f, "  a question                  {asked:>12}")?;
        writeln!(f, "  an objective, one effect    {:>12}", self.finished[0])?;
        writeln!(f, "  an objective, two effects   {:>12}", self.finished[1])?;
        writeln!(f, "  a shrinkage                 {:>12}", self.shrunk)?;
        writeln!(f, "  no shrinkage                {:>12}", self.not_shrunk)?;
        for (number, count) in self.refused.iter().enumerate().skip(1) {
            writeln!(f, "  a refusal with {number:<2}           {count:>12}")?;
        }
        Ok(())
    }
}

/// A call after which something did not hold.
#[derive(Clone, Debug)]
pub struct Fault {
    pub seed: u64,
    /// Which call of the episode, the first being 1.
    pub number: u64,
    pub call: Call,
    pub what: String,
    pub lent: Box<Memory>,
}

impl fmt::Display for Fault {
    fn fmt(&self, f: &mut fmt::Formatter<'_>) -> fmt::Result {
        let Fault {
            seed,
            number,
            call,
            what,
            lent,
        } = self;
        writeln!(f, "{what}")?;
        writeln!(
            f,
            "call {number} of the episode with seed {seed}, {call:?};"
        )?;
        writeln!(f, "to repeat it: garbage --seed {seed} --calls {number}")?;
        writeln!(f, "lent were {:?}, {:?}", lent.setup, lent.parameters)?;
        for (at, name) in NAMES.iter().enumerate() {
            writeln!(f, "{name}, {}: {:x?}", lent.words(at).len(), lent.words(at))?;
        }
        Ok(())
    }
}

/// Runs episodes from this seed on until so many calls were made.
pub fn run(seed: u64, calls: u64) -> Result<Met, Fault> {
    let watch = Watch::begin();
    let mut met = Met::default();
    let mut seed = seed;
    while met.calls < calls {
        let left = calls - met.calls;
        Episode::new(seed).run(left, &mut met, &watch)?;
        seed += 1;
    }
    Ok(met)
}

struct Episode {
    seed: u64,
    random: Random,
    model: Model,
    memory: Memory,
    /// What was lent to the latest call, and a copy for the second run of it.
    before: Memory,
    twin: Memory,
    latest: Option<End>,
    /// Whether nobody but calls has written what is lent since the setup.
    in_session: bool,
    made: u64,
}

impl Episode {
    fn new(seed: u64) -> Self {
        let mut random = Random::new(seed);
        let (large, model) = model(&mut random);
        let memory = session(&mut random, large);
        Episode {
            seed,
            model,
            random,
            before: memory.clone(),
            twin: memory.clone(),
            memory,
            latest: None,
            in_session: false,
            made: 0,
        }
    }

    fn run(mut self, most: u64, met: &mut Met, watch: &Watch) -> Result<(), Fault> {
        let calls = (30 + self.random.below(400)).min(most);
        // of a hundred calls so many are not just the one that is due
        let odd = self.random.pick(&[5, 20, 50]);
        self.call(Call::Setup, met, watch)?;
        while self.made < calls {
            match self.random.below(100) * 50 / odd {
                0..8 => self.garbage(met, watch)?,
                8..38 => self.altered(met, watch)?,
                38..50 => {
                    let call = self.random.pick(&CALLS);
                    self.call(call, met, watch)?;
                }
                _ => self.due(met, watch)?,
            }
        }
        Ok(())
    }

    /// A call over the memory, held to all that must be so after it.
    fn call(&mut self, call: Call, met: &mut Met, watch: &Watch) -> Result<End, Fault> {
        self.made += 1;
        watch.at(self.seed, self.made);
        self.before.copy_from(&self.memory);
        self.twin.copy_from(&self.memory);
        let number = self.memory.call(call);
        let again = self.twin.call(call);
        let held = ended(call, number, &self.before, &self.memory)
            .and_then(|end| self.expected(end))
            .and_then(|end| alike(number, &self.memory, again, &self.twin).map(|()| end));
        let end = held.map_err(|what| Fault {
            seed: self.seed,
            number: self.made,
            call,
            what,
            lent: Box::new(self.before.clone()),
        })?;
        met.count(end, self.memory.setup.effects);
        if !matches!(end, End::Shrunk(_)) {
            self.latest = Some(end);
            self.in_session |= end == End::Opened;
        }
        Ok(end)
    }

    /// In a session there is a shrinkage just where the latest call has finished an
    /// objective with one effect, and has said so in a word of the answer.
    fn expected(&self, end: End) -> Result<End, String> {
        let is_said = !self.memory.words(ANSWER).is_empty();
        let is_one_effect = self.memory.setup.effects == 1;
        let is_finished = self.latest == Some(End::Finished) && is_said && is_one_effect;
        match end {
            End::Shrunk(told) if self.in_session && told != is_finished => Err(format!(
                "shrinkage is told: {told}, after {:?}",
                self.latest
            )),
            _ => Ok(end),
        }
    }

    fn awaits(&self) -> bool {
        let state = self.memory.words(STATE);
        state.len() >= STATE_WORDS && state[AWAITS] == 1
    }

    /// Which call is due, and what it is given.
    fn prepared(&mut self) -> Call {
        if self.awaits() {
            let said = reply(&mut self.random, &self.memory, self.model);
            self.memory.put(REPLY, &said);
            return match self.random.below(200) {
                0 => Call::Failure,
                1..100 => Call::Reply,
                _ => Call::SubjectReply,
            };
        }
        if self.latest == Some(End::Finished) && self.random.coin() {
            return Call::Shrinkage;
        }
        self.memory.parameters = parameters(&mut self.random, &self.memory.setup);
        // a session that can go no further is opened anew
        if self.random.below(12) == 0 || matches!(self.latest, Some(End::Refused(1..=6 | 19))) {
            return Call::Setup;
        }
        Call::Objective
    }

    /// The call that is due. A subject's reply is lent its own observations.
    fn due(&mut self, met: &mut Met, watch: &Watch) -> Result<(), Fault> {
        let call = self.prepared();
        self.lending(call, met, watch)
    }

    fn lending(&mut self, call: Call, met: &mut Met, watch: &Watch) -> Result<(), Fault> {
        let Some(own) = self.own().filter(|_| call == Call::SubjectReply) else {
            return self.call(call, met, watch).map(drop);
        };
        let all = self.memory.words(OBSERVATIONS).to_vec();
        self.memory.put(OBSERVATIONS, &own);
        self.call(call, met, watch)?;
        self.memory.put(OBSERVATIONS, &all);
        Ok(())
    }

    /// The observations of the subject that the state names, where there is one.
    fn own(&self) -> Option<Vec<u64>> {
        let state = self.memory.words(STATE);
        let subject = usize::try_from(*state.get(SUBJECT)?).ok()?;
        let count = *self.memory.words(COUNTS).get(subject)? as usize;
        let first = *state.get(FIRST)? as usize;
        let from = first.checked_mul(OBSERVATION_WORDS)?;
        let to = from.checked_add(count.checked_mul(OBSERVATION_WORDS)?)?;
        self.memory
            .words(OBSERVATIONS)
            .get(from..to)
            .map(<[u64]>::to_vec)
    }

    /// A call, mostly the one that is due, with something altered. The session goes on
    /// from what was before it, or now and then from what it left.
    fn altered(&mut self, met: &mut Met, watch: &Watch) -> Result<(), Fault> {
        let saved = (self.memory.clone(), self.latest, self.in_session);
        let due = self.prepared();
        alter(&mut self.random, &mut self.memory);
        self.in_session = false;
        let call = if self.random.below(4) == 0 {
            self.random.pick(&CALLS)
        } else {
            due
        };
        self.lending(call, met, watch)?;
        met.altered += 1;
        if self.random.below(12) > 0 {
            (self.memory, self.latest, self.in_session) = saved;
        }
        Ok(())
    }

    /// A call over words of any kind, beside the session.
    fn garbage(&mut self, met: &mut Met, watch: &Watch) -> Result<(), Fault> {
        let any = garbage(&mut self.random);
        let saved = (
            std::mem::replace(&mut self.memory, any),
            self.latest,
            self.in_session,
        );
        let call = self.random.pick(&CALLS);
        self.in_session = false;
        self.call(call, met, watch)?;
        met.garbage += 1;
        (self.memory, self.latest, self.in_session) = saved;
        Ok(())
    }
}

/// Every call returns: one that takes longer than a minute ends the program, with its
/// seed and number.
struct Watch {
    seed: Arc<AtomicU64>,
    number: Arc<AtomicU64>,
    over: Arc<AtomicBool>,
}

impl Watch {
    fn begin() -> Self {
        let watch = Watch {
            seed: Arc::default(),
            number: Arc::default(),
            over: Arc::default(),
        };
        let (seed, number) = (watch.seed.clone(), watch.number.clone());
        let over = watch.over.clone();
        thread::spawn(move || {
            let mut last = None;
            let mut since = 0;
            while !over.load(Ordering::Relaxed) {
                thread::sleep(Duration::from_secs(1));
                let now = [&seed, &number].map(|at| at.load(Ordering::Relaxed));
                since = if last == Some(now) { since + 1 } else { 0 };
                last = Some(now);
                if since == 60 {
                    let [seed, number] = now;
                    eprintln!("garbage: call {number} of seed {seed} has not returned in a minute");
                    std::process::abort();
                }
            }
        });
        watch
    }

    fn at(&self, seed: u64, number: u64) {
        self.seed.store(seed, Ordering::Relaxed);
        self.number.store(number, Ordering::Relaxed);
    }
}

impl Drop for Watch {
    fn drop(&mut self) {
        self.over.store(true, Ordering::Relaxed);
    }
}
