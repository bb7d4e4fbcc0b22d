//! Pairs of texts of which one or both are to be refused, or that do not fit each other. What is due of them is `due`'s
//! to say.

use super::mismatch;
use super::pairs::Pair;
use crate::meaning::{script_limit, LIMIT, MOST_BYTES};
use crate::random::Random;
use crate::text::damage;
use crate::text::noise;
use crate::text::paper::{joined, Paper};

/// The two texts, damaged.
pub fn damaged(pair: &Pair, random: &mut Random) -> (Vec<u8>, Vec<u8>) {
    let (sheet, mut script) = (&pair.sheet, pair.script.clone());
    let way = random.below(9);
    if way < 3 || random.chance(10) {
        mismatch::make(&mut script, random);
    }
    let limit = script_limit(script.hidden);
    match way {
        0 | 1 => (sheet.text(), script.text()),
        2 | 3 => (text(sheet, LIMIT, random), script.text()),
        4 | 5 => (sheet.text(), text(&script, limit, random)),
        6 | 7 => (text(sheet, LIMIT, random), text(&script, limit, random)),
        // a candidate hands the sheet in, or the papers are exchanged
        _ => (random.pick(&[sheet, &script]).text(), sheet.text()),
    }
}

/// A text that is to be refused where bounds are at most `limit` in magnitude. By chance alone 1, 3 and 4 would be too seldom.
pub fn text(paper: &Paper, limit: i64, random: &mut Random) -> Vec<u8> {
    match random.below(10) {
        0 => noise::any(random),
        1 => noise::swollen(paper, random),
        2 => long(paper, random),
        3 => with_rule(paper, &cancelling(paper, limit, random), random),
        4 => with_rule(paper, &past_limit(paper, limit, random), random),
        _ => damage::damaged(paper, random),
    }
}

/// One byte too many, or more, behind a text that is right or not.
fn long(paper: &Paper, random: &mut Random) -> Vec<u8> {
    let mut text = if random.chance(50) { paper.text() } else { damage::damaged(paper, random) };
    text.resize(MOST_BYTES + random.pick(&[1, 1, 2, 1000]), b'\n');
    text
}

fn cancelling(paper: &Paper, limit: i64, random: &mut Random) -> String {
    let (q, bound) = (1 + random.edge(paper.n), random.pick(&[0, -1, limit]));
    let (one, other) = random.pick(&[('+', '-'), ('-', '+')]);
    format!("{one}{q}{other}{q}:{bound}")
}

/// A bound or a quantity past its limit by one, a bound at the limit of a script that hides one more, or a doubled term whose
/// half would be within it; one of them would also cancel.
fn past_limit(paper: &Paper, limit: i64, random: &mut Random) -> String {
    let (past, above, double) = (paper.n + 1, limit + 1, 2 * limit);
    match random.below(6) {
        0 => format!("+1:{above}"),
        1 => format!("-1:-{above}"),
        2 => format!("+{past}-1:0"),
        3 => format!("+1-1:{above}"),
        4 => format!("-{}:{double}", paper.n),
        _ => format!("+1+1:-{double}"),
    }
}

/// This rule in the place of one of the paper's, or as the only one.
fn with_rule(paper: &Paper, rule: &str, random: &mut Random) -> Vec<u8> {
    let line = format!("rule={rule}").into_bytes();
    let mut lines = paper.lines();
    match paper.rules.len() {
        0 => {
            lines.truncate(2);
            lines.extend([b"rules=1".to_vec(), line]);
        }
        count => lines[3 + random.edge(count)] = line,
    }
    joined(&lines)
}
