//! What `acornsled ask` has to print for two texts, and random texts for it. No proved program prints that: both texts are read
//! here as `text` reads them, and the answers are those that `asking` finds.

use crate::asking::due::Owed;
use crate::asking::given::{rule, Given, Words};
use crate::asking::lists;
use crate::library::{Reply, NO_ASSIGNMENT};
use crate::marking::{damage, spelling};
use crate::meaning::{size, LIMIT, MOST_QUANTITIES, MOST_QUESTIONS};
use crate::random::Random;
use crate::sheets::{hidden_set, Sheet};
use crate::text::paper::Paper;
use crate::text::reader;
use crate::text::written::Written;

/// The lines that are due.
pub fn printed(sheet: &[u8], questions: &[u8]) -> Result<String, String> {
    // room for every table is there
    let read = |text: &[u8]| reader::due(text, size(MOST_QUANTITIES)).map_err(|refusal| refusal.reply);
    let sheet = match read(sheet) {
        Ok(paper) => paper.sheet(),
        Err(reply) => return Ok(refused(reply, "sheet")),
    };
    let questions = match read(questions) {
        Ok(paper) => paper.rules.iter().flat_map(|written| lists::spelled(&written.rule())).collect(),
        Err(reply) => return Ok(refused(reply, "questions")),
    };
    let given = Given { n: sheet.n, table: sheet.table, questions, workspace: size(sheet.n) };
    Ok(match Owed::of(&given).map_err(|e| format!("{e}\n{given}"))? {
        Owed::Answers(answers) => answers.yes.iter().map(|&yes| if yes { "yes\n" } else { "no\n" }).collect(),
        Owed::Refused(reply) => refused(reply, if reply == NO_ASSIGNMENT { "sheet" } else { "questions" }),
    })
}

fn refused(Reply { number, value }: Reply, paper: &str) -> String {
    format!("refused={number}\npaper={paper}\nline={value}\n")
}

/// The texts of a sheet and of questions with this number: as they are, and with one of them damaged.
pub fn drawn(seed: u64, number: u64) -> [[Vec<u8>; 2]; 2] {
    let mut random = Random::new(seed, number);
    let sheet = match number % 3 {
        0 => Sheet::small(&mut random),
        _ => Sheet::any(&mut random),
    };
    let questions = asking(sheet.n, lists::drawn(&sheet, &mut random), &mut random);
    let sheet = spelling::paper(&sheet, LIMIT, &mut random);
    let damaged = match random.below(3) {
        0 => [damage::text(&sheet, LIMIT, &mut random), questions.text()],
        _ => [sheet.text(), damage::text(&questions, LIMIT, &mut random)],
    };
    [[sheet.text(), questions.text()], damaged]
}

/// A text of these questions to n quantities, with a first line and a hidden list of its own. At times it has none, too many, or
/// one that names a quantity past n.
fn asking(n: usize, mut list: Vec<Words>, random: &mut Random) -> Paper {
    match random.below(12) {
        0 => list.clear(),
        1 => list = list.iter().copied().cycle().take(MOST_QUESTIONS + 1 + random.below(3)).collect(),
        2 if n < MOST_QUANTITIES => {
            let at = random.edge(list.len());
            list[at] = [random.pick(&[1, -1]) * (n as i64 + 1), 0, random.within(-9, 9)];
        }
        _ => {}
    }
    let named = list.iter().flat_map(|&[first, second, _]| [first, second]);
    let least = named.map(|signed| signed.unsigned_abs() as usize).max().unwrap_or(1);
    let n = random.pick(&[n.max(least), least, MOST_QUANTITIES]);
    let rules = list.into_iter().map(|words| {
        let rule = rule(words);
        Written { first: rule.term.first, second: rule.term.second, bound: rule.bound }
    });
    Paper { n, hidden: hidden_set(n, random), rules: rules.collect() }
}
