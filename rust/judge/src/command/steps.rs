//! What `acornsled steps` has to print for a text, and random texts for it. No proved program prints that: the text is read here as
//! `text` reads it, and the tables are those of document 01's own words.

use super::answer::{self, Kind, Said};
use crate::due;
use crate::library::{Reply, NO_ASSIGNMENT};
use crate::marking::{damage, spelling};
use crate::meaning::{is_in, size, terms, Rule, LIMIT, MOST_QUANTITIES, NO_RULE};
use crate::naive;
use crate::random::Random;
use crate::sheets::Sheet;
use crate::text::reader;

/// What is due of the command.
#[derive(PartialEq, Eq, Debug)]
pub enum Due {
    /// steps, or a refusal
    Lines(String),
    /// nothing is hidden, which is told
    Nothing,
    /// the quantity is none that is hidden, which is wrong use
    Misused,
}

/// What is due of a text, of the step of one quantity or of all that are hidden. The text's own refusal comes first.
pub fn due(text: &[u8], quantity: Option<&str>) -> Result<Due, String> {
    // room for every table is there
    let sheet = match reader::due(text, size(MOST_QUANTITIES)) {
        Ok(paper) => paper.sheet(),
        Err(refusal) => return Ok(refused(refusal.reply)),
    };
    if due::key(&sheet)?.is_none() {
        return Ok(refused(NO_ASSIGNMENT));
    }
    let hidden: Vec<usize> = (1..=sheet.n).filter(|&q| is_in(sheet.hidden, q)).collect();
    let due = match quantity {
        None if hidden.is_empty() => Due::Nothing,
        None => Due::Lines(hidden.iter().map(|&q| step(&sheet, q)).collect()),
        Some(named) => match hidden.iter().find(|q| q.to_string() == named) {
            Some(&q) => Due::Lines(step(&sheet, q)),
            None => Due::Misused,
        },
    };
    Ok(due)
}

fn refused(Reply { number, value }: Reply) -> Due {
    Due::Lines(format!("refused={number}\nline={value}\n"))
}

/// The lines of the step of q, those of the hidden quantities that are lower being hidden.
fn step(sheet: &Sheet, q: usize) -> String {
    let Sheet { n, hidden, ref table } = *sheet;
    let mut begun_with = table.clone();
    (1..q).filter(|&lower| is_in(hidden, lower)).for_each(|lower| _ = naive::hide(n, lower, &mut begun_with));
    let tables: Vec<Vec<i64>> = (0..=n + 1).map(|blocks| naive::begun(n, q, blocks, &begun_with)).collect();
    let mut printed = format!("hide={q}\nbefore=block 1\n{}", lines(n, &tables[0], &tables[0]));
    for block in 1..=n {
        printed += &format!("after=block {block}\n{}", lines(n, &tables[block], &tables[block - 1]));
    }
    printed + "after=clearing\n" + &lines(n, &tables[n + 1], &tables[n + 1])
}

/// The lines of a table, with the bounds that another had before.
fn lines(n: usize, table: &[i64], before: &[i64]) -> String {
    let mut printed = String::new();
    for (place, term) in terms(n).into_iter().enumerate().filter(|&(place, _)| table[place] != NO_RULE) {
        printed += &format!("place={place} rule={}", Rule { term, bound: table[place] });
        if table[place] != before[place] {
            printed += " was=";
            printed += &if before[place] == NO_RULE { String::new() } else { before[place].to_string() };
        }
        printed.push('\n');
    }
    printed
}

/// Is this what the command has said? Where there is nothing to print, standard error has to tell why.
pub fn judged(due: &Due, said: &Said, unread: bool) -> Result<Kind, String> {
    let silent = |status: i32, told: &str| {
        let shown = said.errors.escape_ascii();
        let has = said.errors.windows(told.len()).any(|part| part == told.as_bytes());
        match (&said.output[..], said.status) {
            ([], Some(found)) if found == status && has => Ok(()),
            ([], found) => Err(format!("exit status {found:?}, due {status}, with '{shown}' on standard error")),
            (printed, _) => Err(format!("'{}' is printed, where nothing is due", printed.escape_ascii())),
        }
    };
    match due {
        Due::Lines(printed) => answer::judged(printed.as_bytes(), said, unread),
        Due::Nothing => silent(0, "no quantity is hidden").map(|()| Kind::Answer),
        Due::Misused => silent(2, "usage: acornsled steps").map(|()| Kind::Misuse),
    }
}

/// The text of a sheet with this number and the quantity that is named: as it is, and damaged. Of a large sheet one step is asked
/// for at most, for all together are long.
pub fn drawn(seed: u64, number: u64) -> [(Vec<u8>, Option<String>); 2] {
    let mut random = Random::new(seed, number);
    let sheet = match number % 3 {
        0 => Sheet::small(&mut random),
        1 => Sheet::of(1 + random.below(6), &mut random),
        _ => Sheet::any(&mut random),
    };
    let hidden: Vec<usize> = (1..=sheet.n).filter(|&q| is_in(sheet.hidden, q)).collect();
    let named = |random: &mut Random| match random.below(8) {
        0 => Some((1 + random.below(sheet.n + 1)).to_string()),
        1 => Some(random.pick(&["0", "33", "two", "1,2", "2 ", "+1", "01", "18446744073709551617"]).to_string()),
        2..=4 if sheet.n <= 6 => None,
        _ if hidden.is_empty() => None,
        _ => Some(random.pick(&hidden).to_string()),
    };
    let paper = spelling::paper(&sheet, LIMIT, &mut random);
    let damaged = damage::text(&paper, LIMIT, &mut random);
    [paper.text(), damaged].map(|text| (text, named(&mut random)))
}
