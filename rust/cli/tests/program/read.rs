//! Readers of what the program prints: hexadecimal text, CSV and JSON. Each panics where
//! it is given something else.

use std::iter::Peekable;
use std::ops::Index;
use std::str::Chars;

/// What an `O` text says, with all floats as bits.
#[derive(Debug, Default, PartialEq)]
pub struct Bits {
    pub objective: u64,
    pub taken: u64,
    pub etas: Vec<u64>,
    /// Subject, observation, and the predictions of population and individual.
    pub fitted: Vec<[u64; 4]>,
    pub shrinkage: u64,
}

pub fn hex(text: &str) -> Bits {
    let mut bits = Bits::default();
    let float = |digits| u64::from_str_radix(digits, 16).unwrap();
    let whole = |digits: &str| digits.parse().unwrap();
    for line in text.lines() {
        match line.split(' ').collect::<Vec<_>>()[..] {
            ["O", objective, taken] => {
                (bits.objective, bits.taken) = (float(objective), whole(taken))
            }
            ["S", subject, eta] => {
                assert_eq!(whole(subject), bits.etas.len() as u64);
                bits.etas.push(float(eta));
            }
            ["F", subject, observation, population, individual] => {
                let place = [whole(subject), whole(observation)];
                let [subject, observation] = place;
                let fitted = [subject, observation, float(population), float(individual)];
                bits.fitted.push(fitted);
            }
            ["H", shrinkage] => bits.shrinkage = float(shrinkage),
            _ => panic!("{line} is no line of the text"),
        }
    }
    bits
}

/// The cells of a table in CSV.
pub fn csv(text: &str) -> Vec<Vec<String>> {
    let mut rows = Vec::new();
    let mut letters = text.chars().peekable();
    while letters.peek().is_some() {
        let mut row = vec![cell(&mut letters)];
        while letters.next_if_eq(&',').is_some() {
            row.push(cell(&mut letters));
        }
        assert_eq!(letters.next(), Some('\n'));
        rows.push(row);
    }
    rows
}

fn cell(letters: &mut Peekable<Chars>) -> String {
    let mut words = String::new();
    if letters.next_if_eq(&'"').is_none() {
        while let Some(letter) = letters.next_if(|letter| !",\n".contains(*letter)) {
            assert_ne!(letter, '"');
            words.push(letter);
        }
        return words;
    }
    loop {
        match letters.next().expect("the quotes are closed") {
            '"' if letters.next_if_eq(&'"').is_none() => return words,
            letter => words.push(letter),
        }
    }
}

#[derive(Debug, PartialEq)]
pub enum Json {
    Null,
    Truth(bool),
    Number(f64),
    Words(String),
    List(Vec<Json>),
    Object(Vec<(String, Json)>),
}

impl Json {
    pub fn bits(&self) -> u64 {
        match self {
            Json::Number(number) => number.to_bits(),
            other => panic!("{other:?} is no number"),
        }
    }

    pub fn list(&self) -> &[Json] {
        match self {
            Json::List(items) => items,
            other => panic!("{other:?} is no list"),
        }
    }

    /// The names of an object's members.
    pub fn names(&self) -> Vec<&str> {
        match self {
            Json::Object(members) => members.iter().map(|(name, _)| name.as_str()).collect(),
            other => panic!("{other:?} is no object"),
        }
    }
}

impl Index<&str> for Json {
    type Output = Json;

    fn index(&self, name: &str) -> &Json {
        match self {
            Json::Object(members) => &members.iter().find(|(one, _)| one == name).unwrap().1,
            other => panic!("{other:?} is no object"),
        }
    }
}

pub fn json(text: &str) -> Json {
    let mut letters = text.chars().peekable();
    let read = value(&mut letters);
    blanks(&mut letters);
    assert_eq!(letters.next(), None);
    read
}

fn blanks(letters: &mut Peekable<Chars>) {
    while letters.next_if(|letter| " \n".contains(*letter)).is_some() {}
}

fn value(letters: &mut Peekable<Chars>) -> Json {
    blanks(letters);
    match letters.peek().expect("a value begins") {
        '{' => Json::Object(items(letters, '}', |letters| {
            blanks(letters);
            let name = string(letters);
            assert_eq!(letters.next(), Some(':'));
            (name, value(letters))
        })),
        '[' => Json::List(items(letters, ']', value)),
        '"' => Json::Words(string(letters)),
        _ => word(letters),
    }
}

/// What stands between brackets, parted by commas.
fn items<T>(
    letters: &mut Peekable<Chars>,
    end: char,
    item: impl Fn(&mut Peekable<Chars>) -> T,
) -> Vec<T> {
    let mut items = Vec::new();
    letters.next();
    blanks(letters);
    if letters.next_if_eq(&end).is_some() {
        return items;
    }
    loop {
        items.push(item(letters));
        blanks(letters);
        match letters.next() {
            Some(',') => {}
            letter => {
                assert_eq!(letter, Some(end));
                return items;
            }
        }
    }
}

fn string(letters: &mut Peekable<Chars>) -> String {
    assert_eq!(letters.next(), Some('"'));
    let mut words = String::new();
    loop {
        match letters.next().expect("the quotes are closed") {
            '"' => return words,
            '\\' => words.push(letters.next().filter(|one| "\"\\".contains(*one)).unwrap()),
            letter => {
                assert!(letter >= ' ');
                words.push(letter);
            }
        }
    }
}

fn word(letters: &mut Peekable<Chars>) -> Json {
    let mut word = String::new();
    while let Some(letter) = letters.next_if(|letter| !",]} \n".contains(*letter)) {
        word.push(letter);
    }
    match word.as_str() {
        "null" => Json::Null,
        "true" => Json::Truth(true),
        "false" => Json::Truth(false),
        number => {
            let digits = number.strip_prefix('-').unwrap_or(number);
            let ends = [digits.chars().next(), digits.chars().last()];
            let inside = digits.chars().all(|one| "0123456789.e-".contains(one));
            let ends = ends.iter().flatten().all(char::is_ascii_digit);
            assert!(inside && ends, "{number} is no number of JSON");
            Json::Number(number.parse().unwrap())
        }
    }
}
