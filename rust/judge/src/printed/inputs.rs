//! What the programs are run on: random sheets for *key* and random pairs for *mark*, each as it is and damaged.

use crate::marking::damage;
use crate::marking::pairs::Pair;
use crate::marking::spelling;
use crate::meaning::LIMIT;
use crate::random::Random;
use crate::sheets::Sheet;

/// Texts for one of the two programs.
pub enum Input {
    Key(Vec<u8>),
    Mark(Vec<u8>, Vec<u8>),
}

/// The inputs with this number: two sheets for six pairs, so that two threads which take turns run both programs.
pub fn drawn(seed: u64, number: u64) -> [Input; 2] {
    let mut random = Random::new(seed, number);
    match number % 8 {
        0 | 1 => sheets(number, &mut random),
        _ => pairs(number, &mut random),
    }
}

fn pairs(number: u64, random: &mut Random) -> [Input; 2] {
    let pair = Pair::numbered(number, random);
    let (sheet, script) = damage::damaged(&pair, random);
    [Input::Mark(pair.sheet.text(), pair.script.text()), Input::Mark(sheet, script)]
}

/// Each third sheet is small.
fn sheets(number: u64, random: &mut Random) -> [Input; 2] {
    let sheet = match number % 3 {
        0 => Sheet::small(random),
        _ => Sheet::any(random),
    };
    let paper = spelling::paper(&sheet, LIMIT, random);
    [Input::Key(paper.text()), Input::Key(damage::text(&paper, LIMIT, random))]
}
