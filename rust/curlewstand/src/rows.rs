//! The rows of a reply.

use std::error::Error;
use std::fmt;

/// Whether a row is of the moment before a dose or after it, where both are at one time.
///
///     use curlewstand::Side;
///
///     assert_ne!(Side::Pre, Side::Post);
#[derive(Clone, Copy, Debug, PartialEq, Eq)]
pub enum Side {
    /// Before.
    Pre,
    /// After; also where there is no dose.
    Post,
}

/// How many outputs and effects the rows of a session's replies have.
///
///     use curlewstand::Shape;
///
///     let shape = Shape { width: 2, effects: 1 };
///     // time, side, two values, two derivatives
///     assert_eq!(shape.row_words(), 6);
#[derive(Clone, Copy, Debug, PartialEq, Eq)]
pub struct Shape {
    /// The outputs of a row.
    pub width: usize,
    /// The effects by which each output has a derivative.
    pub effects: usize,
}

impl Shape {
    /// The words of a row.
    ///
    ///     # use curlewstand::Shape;
    ///     assert_eq!(Shape { width: 1, effects: 2 }.row_words(), 5);
    pub fn row_words(&self) -> usize {
        2 + self.width * (1 + self.effects)
    }
}

impl fmt::Display for Shape {
    fn fmt(&self, f: &mut fmt::Formatter<'_>) -> fmt::Result {
        let plural = |n: usize, name| format!("{n} {name}{}", if n == 1 { "" } else { "s" });
        let outputs = plural(self.width, "output");
        write!(f, "{outputs} with {}", plural(self.effects, "derivative"))?;
        f.write_str(if self.width == 1 { "" } else { " each" })
    }
}

/// The rows of a reply, to which the simulator adds one after the other. A row that has
/// not the session's number of outputs and effects is refused at once.
///
///     use curlewstand::{Rows, Shape, Side};
///
///     let mut rows = Rows::new(Shape { width: 1, effects: 2 });
///     // at time 0.5: the prediction 3, its derivatives by the two individual values
///     rows.push(0.5, Side::Post, &[(3., [1., 2.])])?;
///     assert_eq!(rows.len(), 1);
///     assert!(rows.push(0.5, Side::Post, &[(3., [1.])]).is_err());
///     # Ok::<(), curlewstand::WrongRow>(())
#[derive(Clone, Debug, PartialEq, Eq)]
pub struct Rows {
    shape: Shape,
    words: Vec<u64>,
}

impl Rows {
    /// No rows yet; [`Session::rows`](crate::Session::rows) has the session's shape.
    ///
    ///     # use curlewstand::{Rows, Shape};
    ///     assert!(Rows::new(Shape { width: 1, effects: 1 }).is_empty());
    pub fn new(shape: Shape) -> Self {
        Rows {
            shape,
            words: Vec::new(),
        }
    }

    /// Adds a row: its time, its side, and for each output the value with its
    /// derivatives by each individual value (not by eta).
    ///
    ///     use curlewstand::{Rows, Shape, Side};
    ///
    ///     // two outputs, one effect
    ///     let mut rows = Rows::new(Shape { width: 2, effects: 1 });
    ///     rows.push(1., Side::Pre, &[(5., [0.5]), (7., [0.1])])?;
    ///     // the core reads the values of a row before its derivatives
    ///     let words = [1., 0., 5., 7., 0.5, 0.1].map(f64::to_bits);
    ///     assert_eq!(rows.words(), words);
    ///     # Ok::<(), curlewstand::WrongRow>(())
    pub fn push<const N: usize>(
        &mut self,
        time: f64,
        side: Side,
        outputs: &[(f64, [f64; N])],
    ) -> Result<(), WrongRow> {
        let given = Shape {
            width: outputs.len(),
            effects: N,
        };
        if given != self.shape {
            return Err(WrongRow {
                given,
                expected: self.shape,
            });
        }
        self.words.push(time.to_bits());
        self.words.push(u64::from(side == Side::Post));
        let values = outputs.iter().map(|(value, _)| value.to_bits());
        self.words.extend(values);
        for effect in 0..N {
            let by_effect = outputs.iter().map(|(_, by)| by[effect].to_bits());
            self.words.extend(by_effect);
        }
        Ok(())
    }

    /// How many rows there are.
    ///
    ///     # use curlewstand::{Rows, Shape};
    ///     assert_eq!(Rows::new(Shape { width: 1, effects: 1 }).len(), 0);
    pub fn len(&self) -> usize {
        self.words.len() / self.shape.row_words()
    }

    /// Whether there is none.
    ///
    ///     # use curlewstand::{Rows, Shape};
    ///     assert!(Rows::new(Shape { width: 1, effects: 1 }).is_empty());
    pub fn is_empty(&self) -> bool {
        self.words.is_empty()
    }

    /// Takes all rows out, for the next reply.
    ///
    ///     # use curlewstand::{Rows, Shape, Side};
    ///     let mut rows = Rows::new(Shape { width: 1, effects: 1 });
    ///     rows.push(0., Side::Post, &[(1., [1.])]).unwrap();
    ///     rows.clear();
    ///     assert!(rows.is_empty());
    pub fn clear(&mut self) {
        self.words.clear();
    }

    /// What the rows have.
    ///
    ///     # use curlewstand::{Rows, Shape};
    ///     let shape = Shape { width: 1, effects: 1 };
    ///     assert_eq!(Rows::new(shape).shape(), shape);
    pub fn shape(&self) -> Shape {
        self.shape
    }

    /// The words that the core reads: floats are their bits, and a side is 0 or 1.
    ///
    ///     # use curlewstand::{Rows, Shape, Side};
    ///     let mut rows = Rows::new(Shape { width: 1, effects: 1 });
    ///     rows.push(0.5, Side::Post, &[(2., [1.])]).unwrap();
    ///     assert_eq!(rows.words(), [0.5f64.to_bits(), 1, 2f64.to_bits(), 1f64.to_bits()]);
    ///     // two outputs, where there is one
    ///     assert!(rows.push(0.5, Side::Pre, &[(2., [1.]), (3., [1.])]).is_err());
    ///     assert_eq!(rows.words().len(), rows.shape().row_words());
    pub fn words(&self) -> &[u64] {
        &self.words
    }

    /// A row's time and side, and an output's value and derivatives, as they were added.
    pub(crate) fn row(&self, row: usize) -> (u64, u64) {
        let at = row * self.shape.row_words();
        (self.words[at], self.words[at + 1])
    }

    pub(crate) fn value(&self, row: usize, output: usize) -> f64 {
        let at = row * self.shape.row_words() + 2;
        f64::from_bits(self.words[at + output])
    }

    pub(crate) fn derivative(&self, row: usize, output: usize, effect: usize) -> f64 {
        let at = row * self.shape.row_words() + 2 + self.shape.width * (1 + effect);
        f64::from_bits(self.words[at + output])
    }
}

/// A row has another number of outputs or derivatives than its session's rows.
///
///     use curlewstand::{Shape, WrongRow};
///
///     let given = Shape { width: 1, effects: 1 };
///     let wrong = WrongRow { given, expected: Shape { width: 3, effects: 2 } };
///     assert_eq!(
///         wrong.to_string(),
///         "a row has 1 output with 1 derivative, and not 3 outputs with 2 derivatives each"
///     );
#[derive(Clone, Copy, Debug, PartialEq, Eq)]
pub struct WrongRow {
    /// What the row has.
    pub given: Shape,
    /// What the session's rows have.
    pub expected: Shape,
}

impl fmt::Display for WrongRow {
    fn fmt(&self, f: &mut fmt::Formatter<'_>) -> fmt::Result {
        let WrongRow { given, expected } = self;
        write!(f, "a row has {given}, and not {expected}")
    }
}

impl Error for WrongRow {}
