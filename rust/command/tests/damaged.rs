//! Texts damaged at random: whatever the bytes are, the reason agrees with the library's refusal and points to the fault, as a
//! sheet, as a script and as a bank sheet.

mod random;

use acornsled::{Paper, Refusal, Refused, Table};
use acornsled_command::reason::lines::{Found, Lines};
use acornsled_command::reason::written::Written;
use acornsled_command::reason::{self, Reason};
use random::Random;

const ROUNDS: u64 = 30_000;

/// What is put into texts: bytes that belong somewhere, and those of the usual causes.
const PIECES: [&str; 53] = [
    "0",
    "1",
    "7",
    "9",
    "+",
    "-",
    ":",
    ",",
    "=",
    "\n",
    "\n\n",
    "\r",
    "\r\n",
    " ",
    "\t",
    "#",
    "//",
    ".",
    "..",
    ";",
    "<=",
    "<",
    ">=",
    "\u{2265}",
    "1.000",
    "1,000",
    "\r\r\n",
    "\n \n",
    "*",
    "e",
    "x",
    "Q",
    "'",
    "_",
    "\0",
    "\x1b",
    "\u{2212}",
    "\u{2013}",
    "\u{a0}",
    "\u{661}",
    "\u{e9}",
    "\u{feff}",
    "\u{1f600}",
    "00",
    "-0",
    "1000000001",
    "2000000001",
    "-4000000000",
    "99999999999999999999999",
    "rule=",
    "rules=",
    "hidden=",
    "quantities=",
];

/// A text that is damaged a few times, or bytes of any kind.
fn damaged(random: &mut Random) -> Vec<u8> {
    if random.below(20) == 0 {
        return (0..random.below(200)).map(|_| random.word() as u8).collect();
    }
    let mut text = random.text().into_bytes();
    for _ in 0..random.below(3) + 1 {
        damage(&mut text, random);
    }
    text
}

fn damage(text: &mut Vec<u8>, random: &mut Random) {
    let at = random.below(text.len() + 1);
    let piece = random.pick(&PIECES).as_bytes();
    match random.below(11) {
        0 => text.truncate(at),
        1 => drop(text.drain(at..(at + random.below(4)).min(text.len()))),
        2 | 3 => drop(text.splice(at..at, piece.iter().copied())),
        4 | 5 => drop(text.splice(at..(at + 1).min(text.len()), piece.iter().copied())),
        6 => text.insert(at, random.word() as u8),
        7 => lines_moved(text, random),
        _ => exchanged(text, random),
    }
}

/// A digit or sign after the keys in the place of another, which keeps the form of most lines.
fn exchanged(text: &mut [u8], random: &mut Random) {
    let places: Vec<usize> =
        (0..text.len()).filter(|&at| text[at].is_ascii_digit() || b"+-".contains(&text[at])).collect();
    let Some(at) = (!places.is_empty()).then(|| random.pick(&places)) else {
        return;
    };
    text[at] = if text[at].is_ascii_digit() { random.pick(b"0123456789") } else { random.pick(b"+-") };
}

/// Two lines exchanged, or one left out or written twice.
fn lines_moved(text: &mut Vec<u8>, random: &mut Random) {
    let mut lines: Vec<Vec<u8>> = text.split_inclusive(|&byte| byte == b'\n').map(<[u8]>::to_vec).collect();
    if lines.is_empty() {
        return;
    }
    let (one, other) = (random.below(lines.len()), random.below(lines.len()));
    match random.below(3) {
        0 => lines.swap(one, other),
        1 => drop(lines.remove(one)),
        _ => lines.insert(other, lines[one].clone()),
    }
    *text = lines.concat();
}

/// The number and the line are the library's, something is expected, and nothing is printed that moves the cursor.
fn assert_agrees(text: &[u8], refusal: Refusal, reason: &Reason) {
    let shown = text.escape_ascii();
    let (number, line) = (refusal.number(), refusal.line());
    let place = if line == 0 { ":".to_string() } else { format!(" at line {line}") };
    let rest = reason.headline.strip_prefix(&format!("name: refused with {number}{place}"));
    let rest = rest.unwrap_or_else(|| panic!("{shown}: {}", reason.headline));
    assert!(line == 0 || rest.is_empty() || rest.starts_with(", byte "), "{shown}: {}", reason.headline);
    assert_eq!(reason.details.iter().filter(|detail| detail.starts_with("expected: ")).count(), 1, "{shown}: {reason}");
    for detail in &reason.details {
        assert!(detail.bytes().all(|byte| (b' '..=b'~').contains(&byte)), "{shown}: {detail}");
        assert!(detail.len() < 260, "{shown}: {detail}");
    }
}

/// The byte that the headline names, counted from 0, and what is told beside the pointer.
fn pointed(reason: &Reason) -> Option<(usize, usize, &str)> {
    let (_, byte) = reason.headline.rsplit_once(", byte ")?;
    let pointer = reason.details[1].trim_start();
    let width = pointer.bytes().take_while(|&byte| byte == b'^').count();
    let column = reason.details[1].len() - pointer.len();
    assert!(width > 0 && column <= 43, "{reason}");
    Some((byte.parse::<usize>().expect("a byte is a number") - 1, width, &pointer[width + 1..]))
}

/// Whether the library takes the line for well formed with some ending, where it would stand in such a paper.
fn can_go_on(paper: Paper, before: &[u8], line: usize, beginning: &[u8]) -> bool {
    let many = "9".repeat(300);
    let mut endings: Vec<String> = ["", "1", ":1", "1:1", "+1:1", &many].map(String::from).to_vec();
    for value in ["quantities=1", "hidden=", "rules=1", "rule=+1:1"] {
        endings.extend((0..value.len()).map(|from| value[from..].to_string()));
    }
    endings.iter().any(|ending| {
        let tried = [before, beginning, ending.as_bytes(), b"\n"].concat();
        Written::of(&tried, paper).err() != Some(Refusal::Malformed { line })
    })
}

/// What stands before the byte that is pointed to can still become a line of its kind, and with the byte it cannot: so it is
/// the first byte that is wrong.
fn assert_first_fault(text: &[u8], paper: Paper, line: usize, at: usize, what: &str) {
    let lines: Vec<&[u8]> = text.split_inclusive(|&byte| byte == b'\n').collect();
    let before = lines[..line - 1].concat();
    let bytes = lines[line - 1].strip_suffix(b"\n").unwrap_or(lines[line - 1]);
    let shown = text.escape_ascii();
    assert!(at <= bytes.len(), "{shown}");
    // a comment is pointed to, and not the blanks before it
    let from = if what.starts_with("a comment") { bytes[..at].trim_ascii_end().len() } else { at };
    assert!(
        can_go_on(paper, &before, line, &bytes[..from]),
        "{shown}: byte {} of line {line} is pointed to too late",
        at + 1
    );
    // a zero is wrong only for the digit after it, -0 only for the end of the line, and a list only for its next number
    let later = ["a leading zero", "leading zeros", "-0", "no line feed", "the line ends here"];
    let lists = what.contains("the list has");
    if from < bytes.len() && !lists && !later.iter().any(|beginning| what.starts_with(beginning)) {
        let length = if what.contains(" stands where ") || what.contains("misspelt") { bytes.len() - from } else { 1 };
        let end = from + if what.starts_with("words") { bytes.len() - from } else { length };
        assert!(
            !can_go_on(paper, &before, line, &bytes[..end]),
            "{shown}: byte {} of line {line} is pointed to too early",
            at + 1
        );
    }
}

/// A line of its own reading says the same as the library's, so that no general message is ever needed.
fn assert_specific(text: &[u8], refused: Refused, reason: &Reason) {
    let Refused { paper, refusal } = refused;
    let line = refusal.line();
    let there = !matches!(Lines::of(text).at(line.max(1)), Found::Missing);
    match (refusal, pointed(reason)) {
        (Refusal::Malformed { .. }, Some((at, _, what))) => {
            assert!(there && what != "the line is malformed", "{}: {reason}", text.escape_ascii());
            if !reason.details[2].contains("the end of the text") {
                assert_first_fault(text, paper, line, at, what);
            }
        }
        (Refusal::Malformed { .. }, None) => assert!(!there, "{}: {reason}", text.escape_ascii()),
        (Refusal::OutOfLimit { .. } | Refusal::Cancelling { .. }, told) => {
            let (_, _, what) = told.expect("a number outside its limit is pointed to");
            assert_ne!(what, "this line", "{}", text.escape_ascii());
        }
        (Refusal::NotCanonical { .. }, told) => {
            let (at, width, what) = told.expect("the terms of a rule are pointed to");
            let terms = Lines::of(text).bytes(line).iter().take_while(|&&byte| byte != b':').count();
            assert_eq!((at, at + width), ("rule=".len(), terms), "{}: {reason}", text.escape_ascii());
            assert!(!["this line", "not in place order"].contains(&what), "{}", text.escape_ascii());
        }
        _ => (),
    }
}

/// The rules of an accepted text, spelled again, are its lines, and so are its first two.
fn assert_read(text: &[u8], paper: Paper) {
    let written = Written::of(text, paper).expect("the text is accepted");
    assert_eq!(Some(written.rules.len()), written.lines.announced());
    let header = format!("quantities={}\nhidden={}\n", written.quantities, joined(&written.hidden.quantities()));
    assert!(text.starts_with(header.as_bytes()), "{}: {header}", text.escape_ascii());
    for (line, rule) in &written.rules {
        let signed = |minus, digits: &[u8]| format!("{}{}", if minus { '-' } else { '+' }, digits.escape_ascii());
        let second = rule.second.map_or(String::new(), |term| signed(term.minus, term.quantity.digits));
        let bound = format!("{}{}", if rule.minus { "-" } else { "" }, rule.bound.digits.escape_ascii());
        let spelled = format!("rule={}{second}:{bound}", signed(rule.first.minus, rule.first.quantity.digits));
        assert_eq!(spelled.as_bytes(), written.lines.bytes(*line));
    }
}

fn joined(numbers: &[usize]) -> String {
    numbers.iter().map(usize::to_string).collect::<Vec<String>>().join(",")
}

/// How often which refusal came of damaged texts, each of which is told of as the library refuses it.
fn counted(paper: Paper, refusal: impl Fn(&[u8]) -> Option<Refusal>) -> [usize; 10] {
    let mut counts = [0; 10];
    for round in 0..ROUNDS {
        let text = damaged(&mut Random(round));
        let Some(refusal) = refusal(&text) else {
            counts[0] += 1;
            assert_read(&text, paper);
            continue;
        };
        counts[refusal.number() as usize] += 1;
        let refused = Refused { paper, refusal };
        let reason = reason::of("name", &text, refused);
        assert_agrees(&text, refusal, &reason);
        assert_specific(&text, refused, &reason);
    }
    counts
}

/// The rounds have all kinds but 1, for which a text has to be long, and 6 and 7, which are no refusals of a text.
#[test]
fn damaged_sheets_are_told_of_as_the_library_refuses_them() {
    // *key* refuses a sheet too that no integers satisfy
    let counts = counted(Paper::Sheet, |text| Table::read(text).and_then(|table| table.assignment()).err());
    assert!([0, 2, 3, 4, 5].iter().all(|&number| counts[number] > 50), "{counts:?}");
}

/// A script that nothing satisfies is no refusal.
#[test]
fn damaged_scripts_are_told_of_as_the_library_refuses_them() {
    let counts = counted(Paper::Script, |text| Written::of(text, Paper::Script).err());
    assert!([0, 2, 3, 4].iter().all(|&number| counts[number] > 50), "{counts:?}");
}

/// So it is by bank reading, which refuses many with 9.
#[test]
fn damaged_bank_sheets_are_told_of_as_the_library_refuses_them() {
    let counts = counted(Paper::Sheet, |text| Table::read_bank(text).err());
    assert!([0, 2, 3, 4, 9].iter().all(|&number| counts[number] > 20), "{counts:?}");
}

/// Whatever refusal it is given, fitting or not, and whatever the text, a reason is found without a panic.
#[test]
fn a_reason_is_found_for_every_refusal_of_every_text() {
    for round in 0..2_000 {
        let mut random = Random(round);
        let (text, other) = (damaged(&mut random), damaged(&mut random));
        let line = random.pick(&[0, 1, 2, 3, 4, 5, 9, 4_000, usize::MAX]);
        let refusals = [
            Refusal::Size,
            Refusal::Malformed { line },
            Refusal::OutOfLimit { line },
            Refusal::Cancelling { line },
            Refusal::NoAssignment,
            Refusal::TooShort { needed: line },
            Refusal::Mismatch,
            Refusal::ListSize,
            Refusal::NotCanonical { line },
        ];
        for refusal in refusals {
            for paper in [Paper::Sheet, Paper::Script, Paper::Both] {
                let reason = reason::of("name", &text, Refused { paper, refusal });
                assert!(reason.headline.starts_with(&format!("name: refused with {}", refusal.number())));
            }
        }
        reason::of_pair(["sheet", "script"], [&text, &other], Refusal::Mismatch);
    }
}
