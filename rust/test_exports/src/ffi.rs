//! The C face of the parts, as it is. Arrays go by pointer, slices by pointer and
//! length; an answer that is written is written whole or not at all. Evaluations
//! write word by word instead, and nothing beyond the end of what they are lent.
//!
//! To call these is unsafe for one reason: a pointer must point to as much as
//! its length says, and what is written must overlap nothing else that is lent.
//! All else, any float, word, number or order of calls, has its answer. The other
//! modules of this crate lend what they own, and are safe.

pub use curlewstand::ffi::Observation;

/// What a reply is an answer to, see `evaluation::Question`.
#[repr(C)]
#[derive(Clone, Copy, Debug, PartialEq)]
pub struct Question {
    /// The subject's first observation.
    pub from: usize,
    /// The one after its last.
    pub to: usize,
    /// The value that was simulated with, the first of two.
    pub individual: f64,
    /// The second, looked at with two effects alone.
    pub individual_2: f64,
    /// Whether there is an override, looked at with one effect alone.
    pub has_additive: bool,
    /// The override, in place of each observation's own.
    pub additive: f64,
    /// How many outputs a row has.
    pub width: u32,
    /// 1 or 2. Any other number makes rows of its length and counts as 1.
    pub effects: u32,
    /// The most values and derivatives that a reply may have.
    pub output_budget: u32,
    /// The work word at which the rows begin.
    pub block: usize,
}

unsafe extern "C" {
    /// Every pattern is accepted; that of a NaN gives a NaN.
    pub fn curlewstand_from_word(word: u64) -> f64;
    /// A NaN gives 7ff8000000000000.
    pub fn curlewstand_to_word(x: f64) -> u64;
    /// Whether it is neither a NaN nor infinite.
    pub fn curlewstand_is_finite(x: f64) -> bool;
    /// The absolute value.
    pub fn curlewstand_abs(x: f64) -> f64;
    /// The larger of the two; a NaN loses.
    pub fn curlewstand_max(a: f64, b: f64) -> f64;
    /// `low` where `x` is below it, else `high` where `x` is above it, else `x`.
    pub fn curlewstand_clamp(x: f64, low: f64, high: f64) -> f64;
    /// The natural logarithm, musl's.
    pub fn curlewstand_log(x: f64) -> f64;
    /// The exponential, musl's; a NaN outside -16..16.
    pub fn curlewstand_exp(x: f64) -> f64;
    /// The determinant.
    pub fn curlewstand_determinant(matrix: *const [[f64; 2]; 2]) -> f64;
    /// True, with inverse and determinant written, or false with neither.
    pub fn curlewstand_inverse_positive(
        matrix: *const [[f64; 2]; 2],
        inverse: *mut [[f64; 2]; 2],
        det: *mut f64,
    ) -> bool;
    /// Writes the matrix times the vector.
    pub fn curlewstand_product(
        matrix: *const [[f64; 2]; 2],
        vector: *const [f64; 2],
        product: *mut [f64; 2],
    );
    /// The scalar product.
    pub fn curlewstand_dot(left: *const [f64; 2], right: *const [f64; 2]) -> f64;
    /// 0 with negative log likelihood, score and information written, or the
    /// number of the refusal with nothing written.
    pub fn curlewstand_row_terms(
        value: f64,
        proportional: f64,
        prediction: f64,
        f_eta: f64,
        additive: f64,
        terms: *mut [f64; 3],
    ) -> u32;
    /// 0 with the row added to the three sums, or the number of the refusal
    /// with the sums as they were.
    pub fn curlewstand_add_row(
        value: f64,
        additive: f64,
        proportional: f64,
        prediction: f64,
        f_eta: *const [f64; 2],
        nll: *mut f64,
        score: *mut [f64; 2],
        information: *mut [[f64; 2]; 2],
    ) -> u32;
    /// The tolerance of a search's modes, in eta.
    pub fn curlewstand_eta_tolerance(gradient_tolerance: f64) -> f64;
    /// Writes the search that has asked nothing. A search's words are its
    /// stage (0 grid, 1 warm start, 2 secant steps, 3 halvings), the stage's
    /// count, the first score, the latest grid point, the fall (0 or 1), the
    /// left and the right end of the bracket and the best point; a point is
    /// four words: eta, negative log likelihood, score, information. Floats
    /// stand as their bits.
    pub fn curlewstand_mode_start(search: *mut [u64; 20]);
    /// 0 with the next point written; or, with nothing written, 1 for a mode,
    /// which is the search's best point, 13, 14 or 15 for a refusal, 19 where
    /// the words are no search.
    pub fn curlewstand_mode_request(
        eta_bound: f64,
        omega: f64,
        tolerance: f64,
        warm: f64,
        search: *const [u64; 20],
        point: *mut f64,
    ) -> u32;
    /// 0 with the evaluated point taken into the search, or 19 with nothing
    /// written where the words are no search. The score has the prior's
    /// eta / omega added to it.
    pub fn curlewstand_mode_advance(
        eta_bound: f64,
        omega: f64,
        tolerance: f64,
        warm: f64,
        search: *mut [u64; 20],
        eta: f64,
        nll: f64,
        score: f64,
        information: f64,
    ) -> u32;
    /// Writes the two-effect search that has asked nothing. Its words are its
    /// stage (0 zero, 1 a start, 2 a trial, 3 a mode, and 4 + the number of a
    /// refusal), the start's number, the round, the reduction, the current
    /// point, the trial's eta, the fall foreseen there and the best point; a
    /// point is nine words: both etas, negative log likelihood, both scores,
    /// information by rows. Floats stand as their bits.
    pub fn curlewstand_mode_2d_start(search: *mut [u64; 25]);
    /// 0 with the next point written; or, with nothing written, 1 for a mode,
    /// which is the search's best point, 13, 14 or 16 for a refusal, 19 where
    /// the words are no search.
    pub fn curlewstand_mode_2d_request(
        eta_bound: f64,
        precision: *const [[f64; 2]; 2],
        warm: *const [f64; 2],
        search: *const [u64; 25],
        point: *mut [f64; 2],
    ) -> u32;
    /// 0 with the evaluated point taken into the search, or 19 with nothing
    /// written where the words are no search. Nothing of the prior is added to
    /// the score.
    pub fn curlewstand_mode_2d_advance(
        eta_bound: f64,
        precision: *const [[f64; 2]; 2],
        warm: *const [f64; 2],
        search: *mut [u64; 25],
        eta: *const [f64; 2],
        nll: f64,
        score: *const [f64; 2],
        information: *const [[f64; 2]; 2],
    ) -> u32;
    /// True with the slot of the entry with the key written, or false with
    /// nothing written. The words belong to `k` rows, and 21 for each suffice:
    /// a head, a link, an entry of 16 and a row of three. The order is the
    /// numbers of the oldest entry and the next one and of the first row and the
    /// next one, at first 1, 1, 0, 0 with all words 0. A key is subject, both
    /// thetas, both etas, whether there is an additive override, and it. Floats
    /// stand as their bits.
    pub fn curlewstand_cache_find(
        words: *const u64,
        words_len: usize,
        k: usize,
        order: *const [u64; 4],
        key: *const [u64; 7],
        slot: *mut usize,
    ) -> bool;
    /// Writes the terms in a slot: negative log likelihood, both scores,
    /// information by rows.
    pub fn curlewstand_cache_terms(
        words: *const u64,
        words_len: usize,
        k: usize,
        slot: usize,
        terms: *mut [u64; 7],
    );
    /// Writes the first `n` rows in a slot, three words each, from word `to` of
    /// `out` on, or nothing where they do not fit.
    pub fn curlewstand_cache_copy_rows(
        words: *const u64,
        words_len: usize,
        k: usize,
        slot: usize,
        n: usize,
        out: *mut u64,
        out_len: usize,
        to: usize,
    );
    /// Keeps an evaluation, its `n` rows standing in `rows` from word `from` on,
    /// and moves the order; or leaves words and order as they are.
    pub fn curlewstand_cache_insert(
        words: *mut u64,
        words_len: usize,
        k: usize,
        order: *mut [u64; 4],
        key: *const [u64; 7],
        terms: *const [u64; 7],
        n: usize,
        rows: *const u64,
        rows_len: usize,
        from: usize,
    );
    /// 0 with the values theta·exp(eta) written, with one effect a zero for the
    /// second; or 7 with nothing written where one is not finite and above 0.
    /// Any number of effects but 2 counts as 1.
    pub fn curlewstand_individual_values(
        theta: *const [f64; 2],
        eta: *const [f64; 2],
        effects: u32,
        individual: *mut [f64; 2],
    ) -> u32;
    /// 0 with nothing written; or 4 with the place of the first observation that
    /// is not sound: its subject, by the subjects' numbers of observations, and
    /// its number within it. A subject without a number, or with 0, counts as
    /// having one observation.
    pub fn curlewstand_check_observations(
        observations: *const Observation,
        observations_len: usize,
        width: u32,
        counts: *const u64,
        counts_len: usize,
        place: *mut u64,
        place_len: usize,
    ) -> u32;
    /// 0 with words 0 to 6 of `out` written: negative log likelihood, both
    /// scores, information by rows. Or the number of the refusal, 8 to 12, with
    /// word 7 written: one more than the observation's number within its
    /// subject, or 0 where the refusal is of none. For each observation whose
    /// row is present, up to a refusal at it, three work words are written:
    /// prediction, time, and side, 0 pre and 1 post. Floats stand as their bits.
    pub fn curlewstand_evaluate(
        observations: *const Observation,
        observations_len: usize,
        question: Question,
        reply: *const u64,
        reply_len: usize,
        work: *mut u64,
        work_len: usize,
        out: *mut u64,
        out_len: usize,
    ) -> u32;
}
