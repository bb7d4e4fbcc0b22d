//! The usual causes of a refusal: for each what the command prints and tells. `cases` has them as tables.

mod cases;
#[path = "../room/mod.rs"]
mod room;

use cases::Case;
use room::{acornsled, ran_on, Ran, Room, SHEET};

/// What is told of a text as a sheet, below a headline with the refusal's number, its line, and the byte that is pointed to, 0
/// where there is none.
fn told_of(text: &[u8], place: (u32, usize, usize)) -> String {
    let got = ran_on(&mut acornsled(["key"]), text);
    told(&got, text, "standard input", "", place)
}

/// The same of a script, beside any sheet.
fn told_of_script(room: &Room, text: &[u8], place: (u32, usize, usize)) -> String {
    let got = ran_on(acornsled(["mark"]).arg(room.file("sheet", SHEET)).arg("-"), text);
    told(&got, text, "the script on standard input", "paper=script\n", place)
}

/// What is told below the headline of such a place, where what is printed is its refusal.
fn told(got: &Ran, text: &[u8], name: &str, paper: &str, (number, line, byte): (u32, usize, usize)) -> String {
    let shown = text[..text.len().min(80)].escape_ascii();
    let printed = format!("refused={number}\n{paper}line={line}\n");
    assert_eq!((got.status, &got.output), (Some(1), &printed), "{shown}");
    let place = match (line, byte) {
        (0, _) => ": ".to_string(),
        (_, 0) => format!(" at line {line}\n"),
        _ => format!(" at line {line}, byte {byte}\n"),
    };
    let headline = format!("acornsled: {name}: refused with {number}{place}");
    let told = got.told.strip_prefix(&headline).unwrap_or_else(|| panic!("{shown}: {}", got.told)).to_string();
    assert!(told.contains("\n    expected: "), "{shown}: {told}");
    told
}

fn assert_told(text: &[u8], place: (u32, usize, usize), words: &[&str]) {
    assert_words(&told_of(text, place), text, words);
}

fn assert_words(told: &str, text: &[u8], words: &[&str]) {
    for words in words {
        assert!(told.contains(words), "{}: '{words}' is not told: {told}", text.escape_ascii());
    }
}

/// The cases of one kind of line, put into a text by `text`, which is refused with 2 at this line.
fn assert_malformed(cases: &[(&str, usize, &str)], line: usize, expected: &str, text: fn(&str) -> String) {
    for &(value, byte, words) in cases {
        assert_told(text(value).as_bytes(), (2, line, byte), &[words, expected]);
    }
}

fn assert_cases(cases: &[Case]) {
    for (text, place, words) in cases {
        assert_told(text, *place, words);
    }
}

#[test]
fn first_lines() {
    let text = |line: &str| format!("{line}\nhidden=\nrules=0\n");
    assert_malformed(cases::FIRST_LINES, 1, "expected: quantities= and how many quantities there are, 1 to 32", text);
}

#[test]
fn hidden_lists() {
    let text = |list: &str| format!("quantities=9\nhidden={list}\nrules=0\n");
    assert_malformed(cases::HIDDEN_LISTS, 2, "expected: hidden= and the hidden quantities, increasing", text);
}

#[test]
fn rule_lines() {
    let text = |line: &str| format!("quantities=3\nhidden=\nrules=1\n{line}\n");
    assert_malformed(cases::RULE_LINES, 4, "expected: rule= and one or two quantities, each with + or -", text);
}

/// Whether the relation that the words name holds between the sum and 5.
fn holds(words: &str, sum: i64) -> bool {
    match words {
        "<=" => sum <= 5,
        "<" => sum < 5,
        ">=" => sum >= 5,
        ">" => sum > 5,
        _ => sum == 5,
    }
}

/// Whether the rules allow that quantities 1 and 2 have this sum.
fn allowed(rules: &[&str], sum: i64) -> bool {
    let lines: String = rules.iter().map(|rule| format!("rule={rule}\n")).collect();
    let count = rules.len() + 2;
    let text = format!("quantities=2\nhidden=\nrules={count}\n{lines}rule=+1+2:{sum}\nrule=-1-2:{}\n", -sum);
    acornsled::key(text.as_bytes()).is_ok()
}

/// What is told names rules, and for integers these say the same as the sign.
#[test]
fn signs_of_relation_in_the_place_of_the_colon() {
    for &(sign, words, rules) in cases::RELATIONS {
        let text = format!("quantities=3\nhidden=\nrules=1\nrule=+1+2{sign}5\n");
        let written: Vec<String> = rules.iter().map(|rule| format!("rule={rule}")).collect();
        let said = format!("quantity 1 + quantity 2 {words} 5 is {}\n", written.join(" and "));
        assert_told(text.as_bytes(), (2, 4, 10), &["a colon is due between the quantities and the bound", &said]);
        assert!((-9..=9).all(|sum| allowed(rules, sum) == holds(words, sum)), "{sign}: {rules:?}");
    }
    assert_told(b"quantities=3\nhidden=\nrules=1\nrule=+1<>5\n", (2, 4, 8), &["no rules say 'unequal'"]);
}

#[test]
fn bytes_that_are_not_ascii() {
    assert_cases(cases::NOT_ASCII);
}

#[test]
fn ends_of_lines_and_missing_lines() {
    assert_cases(cases::ENDS);
}

#[test]
fn keys_in_another_order() {
    assert_cases(cases::ORDER);
}

#[test]
fn counts_that_do_not_fit_the_lines() {
    assert_cases(cases::COUNTS);
}

#[test]
fn numbers_outside_their_limits() {
    assert_cases(cases::LIMITS);
    let long = format!("quantities={}\n", "9".repeat(100));
    assert_told(long.as_bytes(), (3, 1, 12), &["999999999999... (100 digits) quantities: a text has 1 to 32"]);
}

/// A script's limits are told by its own hidden list, whatever the sheet's is.
#[test]
fn bounds_outside_the_limits_of_a_script() {
    let room = Room::new("script-limits");
    for (text, place, words) in cases::SCRIPT_LIMITS {
        assert_words(&told_of_script(&room, text, *place), text, words);
    }
    let all: Vec<String> = (1..=32).map(|quantity| quantity.to_string()).collect();
    let text = format!("quantities=32\nhidden={}\nrules=1\nrule=+1:-4294967296000000001\n", all.join(","));
    let words = "the bound -4294967296000000001 is outside its limits, which are -4,294,967,296,000,000,000 and \
                 4,294,967,296,000,000,000 for a script with 32 hidden quantities";
    assert_words(&told_of_script(&room, text.as_bytes(), (3, 4, 10)), text.as_bytes(), &[words]);
    // the same bytes as a sheet
    let words = "outside its limits, which are -1,000,000,000 and 1,000,000,000\n";
    assert_told(text.as_bytes(), (3, 4, 10), &[words]);
}

/// Within all other limits a script can be too long, where very many quantities are hidden; what a sheet may take is not told
/// of it.
#[test]
fn a_script_of_long_bounds_that_is_too_long() {
    let hidden: Vec<String> = (1..=31).map(|quantity| quantity.to_string()).collect();
    let lines = "rule=+32+32:-2147483648000000000\n".repeat(2_048);
    let text = format!("quantities=32\nhidden={}\nrules=2048\n{lines}", hidden.join(","));
    assert_eq!(text.len(), 67_700);
    let told = told_of_script(&Room::new("script-size"), text.as_bytes(), (1, 0, 0));
    let words = ["at most 65,536 bytes", "of rules with the same terms the one with the smallest bound is enough\n"];
    assert_words(&told, text.as_bytes(), &words);
    assert!(!told.contains("49,271"), "{told}");
}

#[test]
fn rules_that_cancel_or_contradict_each_other() {
    assert_cases(cases::SENSELESS);
    // a half would not do here
    let whole = told_of(b"quantities=1\nhidden=\nrules=2\nrule=+1:0\nrule=-1:-1\n", (5, 0, 0));
    assert!(!whole.contains("fractions"), "{whole}");
}

/// The text in UTF-16, of either order.
fn wide(text: &str, order: fn(u16) -> [u8; 2]) -> Vec<u8> {
    text.encode_utf16().flat_map(order).collect()
}

#[test]
fn texts_in_utf_16() {
    let text = "quantities=3\nhidden=\nrules=0\n";
    let [low, high] = [wide(text, u16::to_le_bytes), wide(text, u16::to_be_bytes)];
    let place = (2, 1, 1);
    assert_told(&low, place, &["a NUL byte after each character, as in UTF-16", "iconv -f UTF-16LE -t ASCII"]);
    assert_told(&high, place, &["a NUL byte before each character, as in UTF-16", "iconv -f UTF-16BE -t ASCII"]);
    let marked = [b"\xff\xfe", low.as_slice()].concat();
    assert_told(
        &marked,
        place,
        &["<0xFF><0xFE>q<NUL>u<NUL>", "the byte order mark of UTF-16", "iconv -f UTF-16 -t ASCII"],
    );
    let marked = [b"\xfe\xff", high.as_slice()].concat();
    assert_told(&marked, place, &["the byte order mark of UTF-16", "iconv -f UTF-16 -t ASCII"]);
    let long = marked.repeat(2_000);
    assert_told(&long, (1, 0, 0), &["at most 65,536 bytes", "it begins with the byte order mark of UTF-16"]);
}

/// A long line is cut on both sides of the fault, and the pointer stays under it.
#[test]
fn long_lines_are_cut_around_the_fault() {
    let digits = "1".repeat(30_000);
    let told = told_of(format!("quantities={digits}x{digits}\n").as_bytes(), (2, 1, 30_012));
    let lines: Vec<&str> = told.lines().collect();
    assert_eq!(lines[0], format!("    ...{}x{}...", &digits[..40], &digits[..36]));
    assert_eq!(lines[1], format!("    {}^ the letter x, where a digit or the end of the line is due", " ".repeat(43)));
}
