//! `acornsled explain`: what texts say, in words.

mod room;

use room::{acornsled, ran, ran_on, Ran, Room, SHEET};

fn explained(text: &str) -> Ran {
    ran_on(&mut acornsled(["explain"]), text.as_bytes())
}

fn answered(output: &str) -> Ran {
    Ran { status: Some(0), output: output.into(), told: String::new() }
}

/// The integers of the example are the library's choice, and are not compared.
fn without_example(got: Ran) -> Ran {
    let mut lines: Vec<&str> = got.output.lines().collect();
    let last = lines.pop().unwrap_or_default();
    assert!(last.starts_with("integers that satisfy all rules, as an example: quantity 1 = "), "{last}");
    Ran { output: lines.join("\n"), ..got }
}

#[test]
fn a_sheet_is_told_line_by_line() {
    let due = "3 quantities; quantity 2 is hidden\n3 rules:\nline 4: quantity 1 + quantity 2 <= 5\n\
               line 5: quantity 1 - quantity 2 <= 2\nline 6: quantity 3 - quantity 2 <= 0\n\
               lines 4, 5 and 6 name a hidden quantity: the text can be a sheet, but not a script";
    assert_eq!(without_example(explained(SHEET)), answered(due));
    let room = Room::new("explain");
    assert_eq!(without_example(ran(acornsled(["explain"]).arg(room.file("a", SHEET)))), answered(due));
}

#[test]
fn every_form_of_a_rule_has_its_words() {
    let rules = ["+1:-4", "-1:-4", "-2:0", "+1+1:7", "+1+1:-3", "-1-1:-1", "-1-1:3", "-1+2:5", "+2-1:5", "-1-2:-3"];
    let lines: String = rules.iter().map(|rule| format!("rule={rule}\n")).collect();
    let due = "2 quantities; none of them hidden\n10 rules:\n\
        line 4: quantity 1 <= -4\n\
        line 5: -quantity 1 <= -4, that is quantity 1 >= 4\n\
        line 6: -quantity 2 <= 0, that is quantity 2 >= 0\n\
        line 7: quantity 1 + quantity 1 <= 7, that is quantity 1 <= 3\n\
        line 8: quantity 1 + quantity 1 <= -3, that is quantity 1 <= -2\n\
        line 9: -quantity 1 - quantity 1 <= -1, that is quantity 1 >= 1\n\
        line 10: -quantity 1 - quantity 1 <= 3, that is quantity 1 >= -1\n\
        line 11: -quantity 1 + quantity 2 <= 5, that is quantity 2 - quantity 1 <= 5\n\
        line 12: quantity 2 - quantity 1 <= 5\n\
        line 13: -quantity 1 - quantity 2 <= -3, that is quantity 1 + quantity 2 >= 3\n\
        no integers satisfy all rules, so that key refuses the text with 5\n\
        the rules of lines ";
    // which of several contradictions is told is the command's choice
    let got = explained(&format!("quantities=2\nhidden=\nrules=10\n{lines}"));
    assert!(got.output.starts_with(due), "{}", got.output);
    assert_eq!((got.status, got.told.as_str()), (Some(0), ""));
}

#[test]
fn hidden_quantities_and_rules_are_counted() {
    let due = "1 quantity; none of them hidden\nno rules";
    assert_eq!(without_example(explained("quantities=1\nhidden=\nrules=0\n")), answered(due));
    let due = "4 quantities; quantities 1, 2 and 4 are hidden\n1 rule:\nline 4: quantity 3 <= 0";
    assert_eq!(without_example(explained("quantities=4\nhidden=1,2,4\nrules=1\nrule=+3:0\n")), answered(due));
    let due = "2 quantities; quantity 2 is hidden\n2 rules:\nline 4: quantity 1 <= 0\nline 5: quantity 2 <= 0\n\
               line 5 names a hidden quantity: the text can be a sheet, but not a script";
    assert_eq!(without_example(explained("quantities=2\nhidden=2\nrules=2\nrule=+1:0\nrule=+2:0\n")), answered(due));
}

/// The integers have to satisfy the rules, whichever they are.
#[test]
fn the_example_satisfies_the_rules() {
    let got = explained("quantities=2\nhidden=\nrules=3\nrule=-1:-7\nrule=+1-2:-3\nrule=+1+2:20\n");
    let last = got.output.lines().last().unwrap_or_default();
    let values: Vec<i64> = last.split(" = ").skip(1).filter_map(|part| part.split(',').next()?.parse().ok()).collect();
    let [first, second] = values[..] else { panic!("{last}") };
    assert!(first >= 7 && first - second <= -3 && first + second <= 20, "{last}");
}

#[test]
fn a_contradiction_is_told_with_its_lines() {
    let text = "quantities=2\nhidden=\nrules=4\nrule=+1:9\nrule=+2+2:1\nrule=+1:8\nrule=-2-2:-1\n";
    let due = "2 quantities; none of them hidden\n4 rules:\nline 4: quantity 1 <= 9\n\
        line 5: quantity 2 + quantity 2 <= 1, that is quantity 2 <= 0\nline 6: quantity 1 <= 8\n\
        line 7: -quantity 2 - quantity 2 <= -1, that is quantity 2 >= 1\n\
        no integers satisfy all rules, so that key refuses the text with 5\n\
        the rules of lines 5 and 7 contradict each other:\n    line 5: rule=+2+2:1\n    line 7: rule=-2-2:-1\n\
        fractions satisfy all rules, but the quantities are integers\n";
    assert_eq!(explained(text), answered(due));
}

/// A text with bounds that a script alone may have is told as one, also where its rules contradict each other.
#[test]
fn a_script_may_have_larger_bounds_than_a_sheet() {
    let text = "quantities=3\nhidden=2\nrules=2\nrule=+1-3:2000000000\nrule=+1:5\n";
    let due = "3 quantities; quantity 2 is hidden\n2 rules:\nline 4: quantity 1 - quantity 3 <= 2000000000\n\
               line 5: quantity 1 <= 5\n\
               line 4 has a bound that is too large for a sheet: the text can be a script, but not a sheet";
    assert_eq!(without_example(explained(text)), answered(due));
    let text = "quantities=3\nhidden=2\nrules=2\nrule=+1+1:1999999999\nrule=-1-1:-1999999999\n";
    let due = "3 quantities; quantity 2 is hidden\n2 rules:\n\
               line 4: quantity 1 + quantity 1 <= 1999999999, that is quantity 1 <= 999999999\n\
               line 5: -quantity 1 - quantity 1 <= -1999999999, that is quantity 1 >= 1000000000\n\
               lines 4 and 5 have bounds that are too large for a sheet: the text can be a script, but not a sheet\n\
               no integers satisfy all rules\n\
               the rules of lines 4 and 5 contradict each other:\n    line 4: rule=+1+1:1999999999\n    \
               line 5: rule=-1-1:-1999999999\n\
               fractions satisfy all rules, but the quantities are integers\n";
    assert_eq!(explained(text), answered(due));
}

/// One that names a hidden quantity is a sheet, and told by the limits of a sheet.
#[test]
fn a_bound_past_a_limit_is_told_by_the_paper_that_the_text_can_be() {
    let limits = |text: &str| {
        let got = explained(text);
        assert_eq!((got.status, got.told.as_str()), (Some(1), ""), "{}", got.output);
        let (_, limits) = got.output.split_once("outside its limits, which are ").expect("the limits are told");
        limits.lines().next().unwrap_or_default().to_string()
    };
    let sheet = "quantities=3\nhidden=2\nrules=2\nrule=+1:2000000001\nrule=+2:5\n";
    assert_eq!(limits(sheet), "-1,000,000,000 and 1,000,000,000");
    let script = "quantities=3\nhidden=2\nrules=2\nrule=+1:2000000001\nrule=+3:5\n";
    assert_eq!(limits(script), "-2,000,000,000 and 2,000,000,000 for a script with 1 hidden quantity");
}

#[test]
fn a_refused_text_is_told_on_standard_output_with_status_1() {
    let got = explained("quantities=3\nhidden=3,1\n");
    let due = "standard input: refused with 2 at line 2, byte 10\n    hidden=3,1\n             ^ 1 follows 3; the list has to \
               increase\n    expected: hidden= and the hidden quantities, increasing and joined by commas, as hidden=2,5; \
               nothing after = where none is hidden\n";
    assert_eq!(got, Ran { status: Some(1), output: due.into(), told: String::new() });
}
