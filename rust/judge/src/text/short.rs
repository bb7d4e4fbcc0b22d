//! All short values of each line, and all orders of a few lines: there nothing is left to chance.

use super::check;
use super::counts::Counts;
use crate::library::Texts;
use crate::meaning::size;
use crate::random::Random;

/// Texts that begin and end alike, with all words between: up to `most` of these pieces in every order.
struct Family {
    begin: &'static str,
    pieces: &'static [&'static str],
    most: u32,
    end: &'static str,
}

const FAMILIES: [Family; 5] = [
    Family { begin: "quantities=", pieces: &["0", "1", "3", "+", "-"], most: 3, end: "\nhidden=\nrules=0\n" },
    Family { begin: "quantities=2\nhidden=", pieces: &["0", "1", "2", ",", "+"], most: 5, end: "\nrules=0\n" },
    Family {
        begin: "quantities=2\nhidden=\nrules=",
        pieces: &["0", "1", "2", "+", "-"],
        most: 4,
        end: "\nrule=+1:0\n",
    },
    // two terms, a colon and a bound take six bytes
    Family {
        begin: "quantities=2\nhidden=\nrules=1\nrule=",
        pieces: &["0", "1", "2", "+", "-", ":"],
        most: 6,
        end: "\n",
    },
    Family {
        begin: "",
        pieces: &["quantities=1\n", "hidden=\n", "rules=0\n", "rules=1\n", "rule=+1:0\n", "rule=+1:0", "\n"],
        most: 5,
        end: "",
    },
];

/// Judges all of them. They are counted as such and not by their replies, for nearly all are malformed.
pub fn all(library: &dyn Texts, counts: &mut Counts) -> Result<(), String> {
    let mut random = Random::new(0, 0);
    for text in FAMILIES.iter().flat_map(Family::texts) {
        check::read(library, text.as_bytes(), size(2), &mut random, &mut Counts::default())?;
        counts.short += 1;
    }
    Ok(())
}

impl Family {
    /// A word of so many pieces is a number of as many digits.
    fn texts(&self) -> impl Iterator<Item = String> + '_ {
        let base = self.pieces.len();
        let word = move |length: u32, number: usize| -> String {
            (0..length).map(|digit| self.pieces[number / base.pow(digit) % base]).collect()
        };
        let words = (0..=self.most).flat_map(move |length| (0..base.pow(length)).map(move |number| (length, number)));
        words.map(move |(length, number)| format!("{}{}{}", self.begin, word(length, number), self.end))
    }
}
