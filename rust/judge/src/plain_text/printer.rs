//! A table's text, in one pass over its words.

use crate::meaning::NO_RULE;

pub fn sheet(n: usize, hidden: u32, table: &[i64]) -> Vec<u8> {
    let rules = table.iter().filter(|&&word| word != NO_RULE).count();
    // a rule takes 33 bytes at most, and the header 119
    let mut text = Vec::with_capacity(33 * rules + 119);
    text.extend_from_slice(b"quantities=");
    number(&mut text, n as u64);
    text.extend_from_slice(b"\nhidden=");
    list(&mut text, hidden);
    text.extend_from_slice(b"\nrules=");
    number(&mut text, rules as u64);
    text.push(b'\n');
    for k in 0..n {
        let (alone, pairs) = table[2 * k * k..2 * (k + 1) * (k + 1)].split_at(2);
        for (x, &bound) in alone.iter().enumerate() {
            rule(&mut text, None, 2 * k + x, bound);
        }
        for (x, pair) in pairs.chunks_exact(2).enumerate() {
            rule(&mut text, Some(x), 2 * k, pair[0]);
            rule(&mut text, Some(x), 2 * k + 1, pair[1]);
        }
    }
    text
}

fn list(text: &mut Vec<u8>, hidden: u32) {
    let mut joint = false;
    for k in (0..32).filter(|k| (hidden >> k) & 1 == 1) {
        if joint {
            text.push(b',');
        }
        number(text, k + 1);
        joint = true;
    }
}

/// The rule on one literal or two, unless there is none.
fn rule(text: &mut Vec<u8>, low: Option<usize>, high: usize, bound: i64) {
    if bound == NO_RULE {
        return;
    }
    text.extend_from_slice(b"rule=");
    if let Some(low) = low {
        literal(text, low);
    }
    literal(text, high);
    text.push(b':');
    if bound < 0 {
        text.push(b'-');
    }
    number(text, bound.unsigned_abs());
    text.push(b'\n');
}

fn literal(text: &mut Vec<u8>, x: usize) {
    text.push([b'+', b'-'][x % 2]);
    number(text, x as u64 / 2 + 1);
}

/// The digits come from the last to the first, and so they are put down.
fn number(text: &mut Vec<u8>, mut value: u64) {
    let mut digits = [0; 20];
    let mut first = digits.len();
    loop {
        first -= 1;
        digits[first] = b'0' + (value % 10) as u8;
        value /= 10;
        if value == 0 {
            break;
        }
    }
    text.extend_from_slice(&digits[first..]);
}
