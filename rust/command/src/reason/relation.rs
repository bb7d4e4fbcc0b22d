//! A sign of relation in the place of the colon. A colon says 'at most', and every other relation takes another rule.

use super::fault::Fault;

const AT_MOST: &str = "a colon says 'at most': quantity 1 + quantity 2 <= 5 is rule=+1+2:5";
const LESS: &str = "a colon says 'at most', and for integers less than 5 is at most 4: quantity 1 + quantity 2 < 5 is \
                    rule=+1+2:4";
const AT_LEAST: &str = "a colon says 'at most', and 'at least' takes the other signs, also of the bound: \
                        quantity 1 + quantity 2 >= 5 is rule=-1-2:-5";
const MORE: &str = "a colon says 'at most', and for integers more than 5 is at least 6, which takes the other signs, \
                    also of the bound: quantity 1 + quantity 2 > 5 is rule=-1-2:-6";
const EQUAL: &str = "a colon says 'at most', and 'equal' takes two rule lines, both counted by rules=: \
                     quantity 1 + quantity 2 = 5 is rule=+1+2:5 and rule=-1-2:-5";
const UNEQUAL: &str = "a colon says 'at most', and no rules say 'unequal'";

/// The signs, none of them after one that it begins with.
const SIGNS: [(&str, &str); 17] = [
    ("<=", AT_MOST),
    ("=<", AT_MOST),
    (">=", AT_LEAST),
    ("=>", AT_LEAST),
    ("<>", UNEQUAL),
    ("!=", UNEQUAL),
    ("==", EQUAL),
    ("<", LESS),
    (">", MORE),
    ("=", EQUAL),
    ("\u{2264}", AT_MOST),
    ("\u{2266}", AT_MOST),
    ("\u{2a7d}", AT_MOST),
    ("\u{2265}", AT_LEAST),
    ("\u{2267}", AT_LEAST),
    ("\u{2a7e}", AT_LEAST),
    ("\u{2260}", UNEQUAL),
];

/// The fault of such a sign, none where another byte stands there.
pub fn fault(line: &[u8], at: usize) -> Option<Fault> {
    let rest = line.get(at..)?;
    let (sign, help) = SIGNS.iter().find(|(sign, _)| rest.starts_with(sign.as_bytes()))?;
    Some(Fault::new(at, sign.len(), "a colon is due between the quantities and the bound").with_help(*help))
}
