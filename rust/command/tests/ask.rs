//! `acornsled ask`: what it prints to the byte, and why questions are refused.

mod room;

use room::{acornsled, ran, ran_on, Ran, Room, SHEET};

/// A text with this n and these rules.
fn text(quantities: usize, rules: &[&str]) -> String {
    let lines: String = rules.iter().map(|rule| format!("rule={rule}\n")).collect();
    format!("quantities={quantities}\nhidden=\nrules={}\n{lines}", rules.len())
}

fn asked(room: &Room, sheet: &str, questions: &str) -> Ran {
    let files = [("sheet.txt", sheet), ("questions.txt", questions)];
    let [sheet, questions] = files.map(|(name, text)| room.file(name, text));
    ran(&mut acornsled(["ask".into(), sheet, questions]))
}

/// Questions to sheet A, each with its answer.
const OF_A: [(&str, &str); 12] = [
    ("+1:3", "yes"),
    ("+1:2", "no"),
    ("+1+1:7", "yes"),
    ("+1+1:6", "yes"),
    ("+1+1:5", "no"),
    ("+1+3:5", "yes"),
    ("+3+1:5", "yes"),
    ("+1+3:4", "no"),
    ("-1:1000000000", "no"),
    ("+3:1000000000", "no"),
    ("-2+3:0", "yes"),
    ("+3-2:-1", "no"),
];

#[test]
fn each_question_has_its_answer_in_order() {
    let room = Room::new("answers");
    let (questions, answers): (Vec<&str>, Vec<&str>) = OF_A.iter().copied().unzip();
    let due = |answers: &[&str]| {
        let output = answers.iter().map(|answer| format!("{answer}\n")).collect();
        Ran { status: Some(0), output, told: String::new() }
    };
    assert_eq!(asked(&room, SHEET, &text(3, &questions)), due(&answers));
    for (question, answer) in OF_A {
        assert_eq!(asked(&room, SHEET, &text(3, &[question])), due(&[answer]), "{question}");
    }
    let (mut questions, mut answers) = (questions, answers);
    questions.reverse();
    answers.reverse();
    assert_eq!(asked(&room, SHEET, &text(3, &questions)), due(&answers));
    // a question that is asked again is answered again
    let many: Vec<&str> = questions.iter().copied().cycle().take(64).collect();
    let due_many: Vec<&str> = answers.iter().copied().cycle().take(64).collect();
    assert_eq!(asked(&room, SHEET, &text(3, &many)), due(&due_many));
}

/// The first two lines of the questions are read, and then do not count.
#[test]
fn the_questions_have_first_lines_of_their_own() {
    let room = Room::new("first-lines");
    for header in
        ["quantities=3\nhidden=2", "quantities=3\nhidden=1,3", "quantities=2\nhidden=", "quantities=32\nhidden=31"]
    {
        let got = asked(&room, SHEET, &format!("{header}\nrules=2\nrule=+1-2:2\nrule=+2:5\n"));
        assert_eq!((got.status, got.output.as_str(), got.told.as_str()), (Some(0), "yes\nno\n", ""), "{header}");
    }
}

/// Only integers count, and a rule counts that several of the sheet imply together, whatever its own bound is.
#[test]
fn answers_are_those_of_integers() {
    let room = Room::new("integers");
    let got = asked(&room, &text(2, &["+1+2:1", "+1-2:0"]), &text(2, &["+1:0", "+1+1:1", "+1+1:0", "+1+1:-1"]));
    assert_eq!((got.status, got.output.as_str()), (Some(0), "yes\nyes\nyes\nno\n"));
    let got = asked(&room, &text(1, &["+1+1:-1"]), &text(1, &["+1:-1", "+1+1:-2", "+1+1:-3"]));
    assert_eq!((got.status, got.output.as_str()), (Some(0), "yes\nyes\nno\n"));
    let far = text(2, &["+1:1000000000", "-1+2:1000000000"]);
    let got = asked(&room, &far, &text(2, &["+2:1000000000", "+1:1000000000", "+1:999999999"]));
    assert_eq!((got.status, got.output.as_str()), (Some(0), "no\nyes\nno\n"));
}

/// What is printed for a refusal, and the beginning of what is told.
fn refused(room: &Room, sheet: &str, questions: &str, printed: &str, told: &str) {
    let got = asked(room, sheet, questions);
    assert_eq!((got.status, got.output.as_str()), (Some(1), printed), "{}", got.told);
    let [sheet, questions] = ["sheet.txt", "questions.txt"].map(|name| room.at(name).display().to_string());
    let due = format!("acornsled: {}", told.replace("SHEET", &sheet).replace("QUESTIONS", &questions));
    assert!(got.told.starts_with(&due), "{}", got.told);
}

#[test]
fn a_refusal_names_its_paper_and_explains_it() {
    let room = Room::new("ask-papers");
    let one = text(3, &["+1:3"]);
    let due = [
        ("quantities=3\n", "", "refused=2\npaper=sheet\nline=2\n", "the sheet SHEET: refused with 2 at line 2\n"),
        (SHEET, "", "refused=2\npaper=questions\nline=1\n", "the questions QUESTIONS: refused with 2 at line 1\n"),
        (
            SHEET,
            &text(3, &["+1:3", "+1-1:0"]),
            "refused=4\npaper=questions\nline=5\n",
            "the questions QUESTIONS: refused with 4 at line 5, byte 6\n",
        ),
        (
            SHEET,
            &text(3, &["+1-1:0", "+1:1000000001"]),
            "refused=4\npaper=questions\nline=4\n",
            "the questions QUESTIONS: refused with 4 at line 4, byte 6\n",
        ),
        (
            SHEET,
            &text(3, &["+1+1:2000000000"]),
            "refused=3\npaper=questions\nline=4\n",
            "the questions QUESTIONS: refused with 3 at line 4, byte 11\n",
        ),
        (
            &text(1, &["+1:0", "-1:-1"]),
            &text(1, &["+1:0"]),
            "refused=5\npaper=sheet\nline=0\n",
            "the sheet SHEET: refused with 5: no integers satisfy its rules\n    the rules of lines 4 and 5 contradict",
        ),
        // the question is refused first
        (
            &text(1, &["+1:0", "-1:-1"]),
            &text(1, &["+1-1:0"]),
            "refused=4\npaper=questions\nline=4\n",
            "the questions QUESTIONS: refused with 4 at line 4, byte 6\n",
        ),
        // and the sheet before the questions
        (
            &text(1, &["+1-1:0"]),
            &text(1, &["+1-1:0", "+1:0"]),
            "refused=4\npaper=sheet\nline=4\n",
            "the sheet SHEET: refused with 4 at line 4, byte 6\n",
        ),
        (
            &one,
            "\n",
            "refused=2\npaper=questions\nline=1\n",
            "the questions QUESTIONS: refused with 2 at line 1, byte 1\n",
        ),
    ];
    for (sheet, questions, printed, told) in due {
        refused(&room, sheet, questions, printed, told);
    }
}

#[test]
fn a_list_that_is_empty_or_too_long_is_refused() {
    let room = Room::new("lists");
    let printed = "refused=8\npaper=questions\nline=0\n";
    let expected = "    expected: 1 to 64 rule lines, each of them a question\n";
    let none = format!("the questions QUESTIONS: refused with 8: the text has no questions\n{expected}");
    refused(&room, SHEET, &text(3, &[]), printed, &none);
    let helps = "    what helps: put the further ones into another text, and ask them by themselves\n";
    let more = format!("the questions QUESTIONS: refused with 8: the text has 65 questions\n{expected}{helps}");
    refused(&room, SHEET, &text(3, &["+1:3"; 65]), printed, &more);
    // before a quantity that the sheet does not have, and before 5
    refused(&room, &text(1, &["+1:0", "-1:-1"]), &text(3, &["+3:3"; 65]), printed, &more);
}

#[test]
fn a_quantity_that_the_sheet_does_not_have_is_told() {
    let room = Room::new("past-sheet");
    let printed = "refused=3\npaper=questions\nline=0\n";
    let told = "the questions QUESTIONS: refused with 3: question 2 names a quantity that the sheet does not have\n    \
                line 5 of the questions:\n    rule=+1-12:3\n            ^^ quantity 12, and the sheet has 3 quantities\n    \
                expected: quantities of the sheet, 1 to 3\n    so it is with 1 question more\n";
    refused(&room, SHEET, &text(12, &["+1:3", "+1-12:3", "+4+1:0"]), printed, told);
    // before 5
    let told =
        "the questions QUESTIONS: refused with 3: question 1 names a quantity that the sheet does not have\n    \
                line 4 of the questions:\n    rule=-2:0\n          ^ quantity 2, and the sheet has 1 quantity\n    \
                expected: quantity 1, the only one of the sheet\n";
    refused(&room, &text(1, &["+1:0", "-1:-1"]), &text(2, &["-2:0"]), printed, told);
}

#[test]
fn one_of_the_two_may_be_standard_input() {
    let room = Room::new("ask-input");
    let (questions, sheet) = (text(3, &["+1:3", "+1:2"]), room.file("sheet", SHEET));
    let asking = room.file("questions", &questions);
    let answered = || Ran { status: Some(0), output: "yes\nno\n".into(), told: String::new() };
    assert_eq!(ran_on(acornsled(["ask"]).arg(&sheet).arg("-"), questions.as_bytes()), answered());
    assert_eq!(ran_on(acornsled(["ask", "-"]).arg(&asking), SHEET.as_bytes()), answered());
    assert_eq!(ran(acornsled(["ask", "--"]).arg(&sheet).arg(&asking)), answered());
    let refused = ran_on(acornsled(["ask"]).arg(&sheet).arg("-"), b"");
    assert!(refused.told.starts_with("acornsled: the questions on standard input: refused with 2 at line 1\n"));
    let both = ran(&mut acornsled(["ask", "-", "-"]));
    assert_eq!((both.status, both.output.as_str()), (Some(2), ""));
    assert!(both.told.starts_with("acornsled: only one of the two can be standard input\nusage: "), "{}", both.told);
}
