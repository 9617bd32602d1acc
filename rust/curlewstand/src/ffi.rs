//! The C interface of the static library, as it is. Slices go by pointer and length.
//!
//! To call those that take pointers is unsafe for one reason: a pointer must point
//! to as much as its length says, and what is written must overlap nothing else
//! that is lent. All else, any float, word, number or order of calls, has its
//! answer. The other modules of this crate lend what they own, and are safe.

/// One observation of a subject, as it is lent.
///
///     use curlewstand::Observation;
///
///     // 4.2, measured with a deviation of 0.1 and a tenth of the prediction, and
///     // predicted by the first output of the reply's third row
///     let measured = Observation { output: 0, row: 2, value: 4.2, additive: 0.1, proportional: 0.1 };
///     assert_eq!(measured.row, 2);
#[repr(C)]
#[derive(Clone, Copy, Debug, PartialEq)]
pub struct Observation {
    /// Which of a row's outputs predicts it.
    pub output: usize,
    /// Which of the reply's rows predicts it.
    pub row: usize,
    /// What was measured.
    pub value: f64,
    /// The additive deviation of its error.
    pub additive: f64,
    /// The proportional deviation of its error.
    pub proportional: f64,
}

/// What a session is given, see `Setup`.
#[repr(C)]
#[derive(Clone, Copy, Debug, PartialEq)]
pub struct SessionSetup {
    /// 1 or 2.
    pub effects: u32,
    /// Omega by rows. With one effect its first entry alone is looked at.
    pub omega_00: f64,
    /// First row, second column.
    pub omega_01: f64,
    /// Second row, first column.
    pub omega_10: f64,
    /// Second row, second column.
    pub omega_11: f64,
    /// The largest absolute eta.
    pub eta_bound: f64,
    /// The outer fit's.
    pub gradient_tolerance: f64,
    /// How many outputs a row has.
    pub width: u32,
    /// The most rows that are kept.
    pub k: usize,
    /// Whether there is an override.
    pub has_additive: bool,
    /// The override, in place of each observation's own.
    pub additive: f64,
    /// The most values and derivatives of a reply.
    pub output_budget: u32,
    /// The most evaluations of the session.
    pub max_evaluations: u32,
}

/// What may change with each objective, see `Parameters`.
#[repr(C)]
#[derive(Clone, Copy, Debug, PartialEq)]
pub struct SessionParameters {
    /// The typical value, the first of two.
    pub theta: f64,
    /// The second, looked at with two effects alone.
    pub theta_2: f64,
    /// With one effect its variance.
    pub omega: f64,
    /// Whether there is an override.
    pub has_additive: bool,
    /// The override, in place of each observation's own.
    pub additive: f64,
}

/// What a session has counted since it was opened or restarted.
///
///     use curlewstand::Tally;
///
///     let before = Tally::default();
///     assert_eq!((before.calls, before.cached_rows), (0, 0));
#[repr(C)]
#[derive(Clone, Copy, Debug, Default, PartialEq, Eq)]
pub struct Tally {
    /// The evaluations that were taken, the awaited one among them. A kept evaluation
    /// is asked for again, and not taken.
    pub calls: u32,
    /// The rows of the evaluations that are kept now.
    pub cached_rows: usize,
}

/// Refers to this interface's own name, so that a program which calls the library does
/// not link with one of another interface.
pub(crate) fn require_interface() {
    curlewstand_interface_2();
}

unsafe extern "C" {
    /// Opens a session; 0, or 1 to 5 or 19. See include/curlewstand.h, also for
    /// the others.
    pub fn curlewstand_setup(
        setup: SessionSetup,
        observations: *const Observation,
        observations_len: usize,
        counts: *const u64,
        counts_len: usize,
        tally: *mut Tally,
        state: *mut u64,
        state_len: usize,
        answer: *mut u64,
        answer_len: usize,
        cache: *mut u64,
        cache_len: usize,
        work: *mut u64,
        work_len: usize,
        warm: *mut u64,
        warm_len: usize,
        results: *const u64,
        results_len: usize,
    ) -> u32;
    /// Begins an objective; 0, or the number of a refusal.
    pub fn curlewstand_objective(
        setup: SessionSetup,
        parameters: SessionParameters,
        observations: *const Observation,
        observations_len: usize,
        counts: *const u64,
        counts_len: usize,
        tally: *mut Tally,
        state: *mut u64,
        state_len: usize,
        answer: *mut u64,
        answer_len: usize,
        cache: *const u64,
        cache_len: usize,
        work: *mut u64,
        work_len: usize,
        warm: *mut u64,
        warm_len: usize,
        results: *mut u64,
        results_len: usize,
    ) -> u32;
    /// Takes a reply; 0, or the number of a refusal.
    pub fn curlewstand_reply(
        setup: SessionSetup,
        observations: *const Observation,
        observations_len: usize,
        counts: *const u64,
        counts_len: usize,
        reply: *const u64,
        reply_len: usize,
        tally: *mut Tally,
        state: *mut u64,
        state_len: usize,
        answer: *mut u64,
        answer_len: usize,
        cache: *mut u64,
        cache_len: usize,
        work: *mut u64,
        work_len: usize,
        warm: *mut u64,
        warm_len: usize,
        results: *mut u64,
        results_len: usize,
    ) -> u32;
    /// Takes a reply, with the observations of the awaited subject alone: those
    /// from the number in the state's word 9 on, as many as its count says. 0, or
    /// the number of a refusal. Where no count and no observation has changed
    /// since setup it is `curlewstand_reply` with all observations.
    pub fn curlewstand_subject_reply(
        setup: SessionSetup,
        observations: *const Observation,
        observations_len: usize,
        counts: *const u64,
        counts_len: usize,
        reply: *const u64,
        reply_len: usize,
        tally: *mut Tally,
        state: *mut u64,
        state_len: usize,
        answer: *mut u64,
        answer_len: usize,
        cache: *mut u64,
        cache_len: usize,
        work: *mut u64,
        work_len: usize,
        warm: *mut u64,
        warm_len: usize,
        results: *mut u64,
        results_len: usize,
    ) -> u32;
    /// The simulator failed; 8, or the number of an earlier refusal.
    pub fn curlewstand_failure(
        setup: SessionSetup,
        observations: *const Observation,
        observations_len: usize,
        counts: *const u64,
        counts_len: usize,
        tally: *mut Tally,
        state: *mut u64,
        state_len: usize,
        answer: *mut u64,
        answer_len: usize,
        cache: *const u64,
        cache_len: usize,
        work: *mut u64,
        work_len: usize,
        warm: *const u64,
        warm_len: usize,
        results: *const u64,
        results_len: usize,
    ) -> u32;
    /// The number of the interface, 2. It is in the name too, so that a library of
    /// another interface does not link.
    pub safe fn curlewstand_interface_2() -> u32;
    /// Fits a file of records, and gives the length of the text that is written; 0, and
    /// nothing is written, where there is not room for every text.
    pub fn curlewstand_fit(
        records: *const u8,
        records_len: usize,
        text: *mut u8,
        text_len: usize,
    ) -> usize;
    /// The most evaluations that one subject's search asks for within one
    /// objective, with one effect or two; 0 with any other number.
    pub safe fn curlewstand_ceiling(effects: u32) -> u32;
    /// Writes the shrinkage of the objective with one effect that the latest call
    /// has finished, and gives 0: the counts are the session's, and state and answer
    /// as that call left them. Else it gives 19, and nothing is written.
    pub fn curlewstand_shrinkage(
        counts: *const u64,
        counts_len: usize,
        state: *const u64,
        state_len: usize,
        answer: *const u64,
        answer_len: usize,
        shrinkage: *mut f64,
    ) -> u32;
}
