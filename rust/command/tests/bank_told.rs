//! What `acornsled bank --check` tells of a rule that a bank sheet does not have so, or not there, and what comes of doing what
//! it says.

mod random;
mod room;

use acornsled::{Paper, Refused, Table};
use acornsled_command::reason::{self, Reason};
use random::{text, Random};
use room::{acornsled, ran, ran_on, Ran, Room, SHEET};

/// What `--check` says of a text.
fn checked(text: &str) -> Ran {
    ran_on(&mut acornsled(["bank", "--check"]), text.as_bytes())
}

/// What is told of sheet A, whole.
#[test]
fn a_refusal_is_explained_with_its_line() {
    let room = Room::new("bank-refused");
    let path = room.file("sheet.txt", SHEET);
    let got = ran(acornsled(["bank", "--check"]).arg(&path));
    let told = format!(
        "acornsled: {}: refused with 9 at line 6, byte 6\n    rule=+3-2:0\n         \
         ^^^^ the higher quantity stands first: write rule=-2+3:0\n    \
         expected: rules in place order, each place once, the lower quantity first, no doubled term\n    \
         what helps: the sheet is put into bank form by  acornsled bank FILE > NEW\n",
        path.display()
    );
    assert_eq!(got, Ran { status: Some(1), output: "refused=9\nline=6\n".into(), told });
}

/// Rules of which the last is refused, the pointer to its terms, and what is told behind that.
const TOLD: [(&[&str], &str, &str); 16] = [
    (&["+1+1:7"], "^^^^", "a doubled term: write rule=+1:3 (halved and rounded down)"),
    (&["-12-12:-8"], "^^^^^^", "a doubled term: write rule=-12:-4 (halved)"),
    (&["+1+1:-7"], "^^^^", "a doubled term: write rule=+1:-4 (halved and rounded down)"),
    (&["+2:0", "-1-1:1"], "^^^^", "a doubled term: write rule=-1:0 (halved and rounded down), before line 4"),
    (
        &["+1:3", "+1+1:8"],
        "^^^^",
        "a doubled term, and rule=+1:4 (halved) has the place of line 4: leave this line out",
    ),
    (
        &["+1:3", "+2:0", "+1+1:4"],
        "^^^^",
        "a doubled term, and rule=+1:2 (halved) has the place of line 4: write the smaller bound 2 there, and leave this line \
         out",
    ),
    (&["+2-1:0"], "^^^^", "the higher quantity stands first: write rule=-1+2:0"),
    (&["+1:0", "-12+11:5"], "^^^^^^", "the higher quantity stands first: write rule=+11-12:5"),
    (&["+1:0", "+3:0", "-2-1:5"], "^^^^", "the higher quantity stands first: write rule=-1-2:5, before line 5"),
    (
        &["+1+2:7", "+2+1:6"],
        "^^^^",
        "the higher quantity stands first, and rule=+1+2:6 has the place of line 4: write the smaller bound 6 there, and leave \
         this line out",
    ),
    (&["+1:0", "+1:0"], "^^", "the same place as the rule of line 4, and each has one rule: leave this line out"),
    (&["+1:0", "+11-12:0", "-12:1"], "^^^", "place 243, which is before place 285 of line 5: move the line before line 5"),
    (
        &["+1:0", "-1+2:0", "+3:0", "-1+2:-1"],
        "^^^^",
        "the same place as the rule of line 5, and each has one rule: write the smaller bound -1 there, and leave this line out",
    ),
    (&["+1+2:0", "+2:0"], "^^", "place 2, which is before place 4 of line 4: move the line before line 4"),
    (&["+1:0", "+2:0", "+3:0", "-1:0"], "^^", "place 1, which is before place 8 of line 6: move the line before line 5"),
    (&["+2+3:0", "-1-3:0"], "^^^^", "place 13, which is before place 14 of line 4: move the line before line 4"),
];

#[test]
fn each_reason_is_told_with_what_to_do() {
    for (rules, pointer, words) in TOLD {
        let rules: Vec<String> = rules.iter().map(|rule| rule.to_string()).collect();
        let (line, last) = (rules.len() + 3, &rules[rules.len() - 1]);
        let got = checked(&text(12, "2", &rules));
        assert_eq!((got.status, got.output), (Some(1), format!("refused=9\nline={line}\n")), "{rules:?}");
        let told = format!(
            "acornsled: standard input: refused with 9 at line {line}, byte 6\n    rule={last}\n         {pointer} {words}\n    \
             expected: rules in place order, "
        );
        assert!(got.told.starts_with(&told), "{rules:?}: {}", got.told);
    }
}

/// Where the command would refuse to write the bank form, it is not said to help.
#[test]
fn a_later_line_that_is_refused_in_any_form_is_told() {
    let got = checked("quantities=2\nhidden=\nrules=3\nrule=+1:0\nrule=+2+1:0\nrule=+1-1:0\n");
    assert_eq!((got.status, got.output.as_str()), (Some(1), "refused=9\nline=5\n"));
    let help = "    what helps: a sheet whose lines are all fine is put into bank form by  acornsled bank FILE > NEW; line 6 of \
                this one is refused with 4\n";
    assert!(got.told.ends_with(help), "{}", got.told);
}

/// Does with a line what is told of it: it is written otherwise or left out, and stands before another one.
fn followed(lines: &mut Vec<String>, line: usize, told: &str) {
    let number = |after: &str| {
        let (_, rest) = told.rsplit_once(after)?;
        rest.split([' ', ',', ':']).next()?.parse::<i64>().ok()
    };
    let taken = lines.remove(line - 1);
    if told.contains("leave this line out") {
        lines[2] = format!("rules={}", lines.len() - 3);
        if let Some(bound) = number("the smaller bound ") {
            let there = number(" of line ").expect("the line is told") as usize;
            let (terms, _) = lines[there - 1].split_once(':').expect("a rule has a colon");
            lines[there - 1] = format!("{terms}:{bound}");
        }
        return;
    }
    let written = told.split_once("write rule=").map(|(_, rest)| rest.split([' ', ',']).next().unwrap_or_default());
    let written = written.map_or(taken, |rule| format!("rule={rule}"));
    let at = number("before line ").map_or(line, |at| at as usize);
    lines.insert(at - 1, written);
}

/// Whoever does what is told, line after line, ends with the bank form.
#[test]
fn what_is_told_leads_to_bank_form() {
    let mut random = Random(9);
    for _ in 0..200 {
        let n = random.pick(&[1, 2, 3, 12]);
        let rules: Vec<String> = (0..random.below(12)).map(|_| random.rule(n, 4)).collect();
        let text = text(n, "", &rules);
        let mut lines: Vec<String> = text.lines().map(String::from).collect();
        loop {
            let now: String = lines.iter().map(|line| format!("{line}\n")).collect();
            let Err(refusal) = Table::read_bank(now.as_bytes()) else {
                let form = Table::read(text.as_bytes()).and_then(|table| table.text());
                assert_eq!(Ok(now.into_bytes()), form);
                break;
            };
            let Reason { details, .. } = reason::of("", now.as_bytes(), Refused { paper: Paper::Sheet, refusal });
            assert_eq!(refusal.number(), 9, "{now}");
            followed(&mut lines, refusal.line(), &details[1]);
        }
    }
}
