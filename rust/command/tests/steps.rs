//! `acornsled steps`: what it prints to the byte, which quantity may be named, and why a sheet is refused.

mod room;

use room::{acornsled, ran, ran_on, Ran, Room, SHEET};

/// The step of sheet A.
const STEP: &str = "hide=2\nbefore=block 1\nplace=4 rule=+1+2:5\nplace=5 rule=+1-2:2\nplace=16 rule=-2+3:0\n\
                    after=block 1\nplace=0 rule=+1:3 was=\nplace=4 rule=+1+2:5\nplace=5 rule=+1-2:2\nplace=16 rule=-2+3:0\n\
                    after=block 2\nplace=0 rule=+1:3\nplace=4 rule=+1+2:5\nplace=5 rule=+1-2:2\nplace=16 rule=-2+3:0\n\
                    after=block 3\nplace=0 rule=+1:3\nplace=4 rule=+1+2:5\nplace=5 rule=+1-2:2\n\
                    place=10 rule=+1+3:5 was=\nplace=16 rule=-2+3:0\n\
                    after=clearing\nplace=0 rule=+1:3\nplace=10 rule=+1+3:5\n";

/// A text with this n, this hidden list and these rules.
fn text(quantities: usize, hidden: &str, rules: &[&str]) -> String {
    let lines: String = rules.iter().map(|rule| format!("rule={rule}\n")).collect();
    format!("quantities={quantities}\nhidden={hidden}\nrules={}\n{lines}", rules.len())
}

fn stepped(room: &Room, sheet: &str, quantity: Option<&str>) -> Ran {
    let sheet = room.file("sheet.txt", sheet);
    ran(acornsled(["steps"]).arg(sheet).args(quantity))
}

fn printed(output: impl Into<String>) -> Ran {
    Ran { status: Some(0), output: output.into(), told: String::new() }
}

#[test]
fn the_step_of_sheet_a_is_followed_block_by_block() {
    let room = Room::new("step-a");
    assert_eq!(stepped(&room, SHEET, None), printed(STEP));
    assert_eq!(stepped(&room, SHEET, Some("2")), printed(STEP));
}

/// What was there before the block is told, and nothing of a sum that is not smaller.
#[test]
fn a_bound_that_a_block_changes_is_told() {
    let room = Room::new("lowered");
    let got = stepped(&room, &text(2, "2", &["+1:9", "+1+2:-2", "+1-2:-1"]), None);
    let rest = "place=4 rule=+1+2:-2\nplace=5 rule=+1-2:-1\n";
    let due = format!(
        "hide=2\nbefore=block 1\nplace=0 rule=+1:9\n{rest}after=block 1\nplace=0 rule=+1:-2 was=9\n{rest}\
         after=block 2\nplace=0 rule=+1:-2\n{rest}after=clearing\nplace=0 rule=+1:-2\n"
    );
    assert_eq!(got, printed(due));
    let got = stepped(&room, &text(2, "2", &["+1:-2", "+1+2:-2", "+1-2:-1"]), None);
    assert!(got.status == Some(0) && !got.output.contains("was="), "{}", got.output);
}

/// Each step begins with the table at the end of the one before, and the last ends with the plain key.
#[test]
fn the_steps_of_all_hidden_quantities_follow_each_other() {
    let room = Room::new("several");
    let sheet = text(4, "1,3,4", &["+1+2:3", "-1+3:4", "-3+2:0", "-3-4:7", "+4:1", "-4+3:2"]);
    let all = stepped(&room, &sheet, None);
    let each = ["1", "3", "4"].map(|quantity| stepped(&room, &sheet, Some(quantity)).output);
    assert_eq!(all, printed(each.concat()));
    for (quantity, step) in ["1", "3", "4"].iter().zip(&each) {
        assert!(step.starts_with(&format!("hide={quantity}\nbefore=block 1\n")), "{step}");
        let heads: Vec<&str> = step.lines().filter(|line| line.starts_with("after=")).collect();
        assert_eq!(heads, ["after=block 1", "after=block 2", "after=block 3", "after=block 4", "after=clearing"]);
    }
    for pair in each.windows(2) {
        let (_, end) = pair[0].split_once("after=clearing\n").expect("a step has an end");
        let (_, after) = pair[1].split_once("before=block 1\n").expect("a step has a beginning");
        let (begin, _) = after.split_once("after=block 1\n").expect("a step has a block");
        assert_eq!(begin, end);
    }
}

#[test]
fn a_sheet_that_hides_nothing_has_no_steps() {
    let room = Room::new("none-hidden");
    let got = stepped(&room, &text(2, "", &["+1+2:0"]), None);
    let told =
        format!("acornsled: {}: no quantity is hidden, so that there are no steps\n", room.at("sheet.txt").display());
    assert_eq!(got, Ran { status: Some(0), output: String::new(), told });
}

#[test]
fn a_quantity_that_is_not_hidden_is_wrong_use() {
    let room = Room::new("not-hidden");
    let three = text(9, "2,5,7", &[]);
    let nothing = text(2, "", &[]);
    let due = [
        (SHEET, "3", "3 is no quantity that is hidden: the sheet hides quantity 2 alone"),
        (SHEET, "4", "4 is no quantity that is hidden: the sheet hides quantity 2 alone"),
        (SHEET, "0", "0 is no quantity that is hidden: the sheet hides quantity 2 alone"),
        (SHEET, "02", "02 is no quantity that is hidden: the sheet hides quantity 2 alone"),
        (SHEET, "+2", "+2 is no quantity that is hidden: the sheet hides quantity 2 alone"),
        (SHEET, "", "'' is no quantity that is hidden: the sheet hides quantity 2 alone"),
        (
            SHEET,
            "18446744073709551618",
            "18446744073709551618 is no quantity that is hidden: the sheet hides quantity 2 alone",
        ),
        (SHEET, "\x1b[2J", "\\u{1b}[2J is no quantity that is hidden: the sheet hides quantity 2 alone"),
        (&three, "3", "3 is no quantity that is hidden: the sheet hides quantities 2, 5 and 7"),
        (&nothing, "1", "1 is no quantity that is hidden: the sheet hides no quantity"),
    ];
    for (sheet, quantity, message) in due {
        let got = stepped(&room, sheet, Some(quantity));
        let told = format!("acornsled: {message}\nusage: acornsled steps SHEET [QUANTITY]\n");
        assert_eq!(got, Ran { status: Some(2), output: String::new(), told });
    }
}

/// The sheet is read before the quantity is looked at, and one without a key has no steps, be something hidden or not.
#[test]
fn a_refusal_is_that_of_the_key() {
    let room = Room::new("steps-refused");
    let sheets = [
        ("quantities=3\n".to_string(), "refused=2\nline=2\n"),
        (text(3, "2", &["+1:1000000001"]), "refused=3\nline=4\n"),
        (text(3, "2", &["+1:3", "+2-2:0"]), "refused=4\nline=5\n"),
        (text(2, "2", &["+1:0", "-1:-1"]), "refused=5\nline=0\n"),
        (text(2, "1", &["+1+2:1", "-1-2:-1", "+1-2:0", "-1+2:0"]), "refused=5\nline=0\n"),
        (text(1, "", &["+1+1:1", "-1-1:-1"]), "refused=5\nline=0\n"),
        ("x".repeat(65_537), "refused=1\nline=0\n"),
    ];
    for (sheet, output) in sheets {
        let key = ran(acornsled(["key"]).arg(room.file("sheet.txt", &sheet)));
        assert_eq!((key.status, key.output.as_str()), (Some(1), output));
        for quantity in [None, Some("2"), Some("9"), Some("two")] {
            assert_eq!(stepped(&room, &sheet, quantity), key, "{quantity:?}");
        }
    }
}

#[test]
fn the_sheet_may_be_standard_input() {
    let room = Room::new("steps-input");
    assert_eq!(ran_on(&mut acornsled(["steps", "-"]), SHEET.as_bytes()), printed(STEP));
    assert_eq!(ran_on(&mut acornsled(["steps", "-", "2"]), SHEET.as_bytes()), printed(STEP));
    let sheet = room.file("sheet", SHEET);
    assert_eq!(ran(acornsled(["steps", "--"]).arg(&sheet).arg("2")), printed(STEP));
    let refused = ran_on(&mut acornsled(["steps", "-"]), b"");
    assert_eq!((refused.status, refused.output.as_str()), (Some(1), "refused=2\nline=1\n"));
    assert!(refused.told.starts_with("acornsled: standard input: refused with 2 at line 1\n"), "{}", refused.told);
}

/// Bounds that no sheet may have are printed, and of the largest n every block.
#[test]
fn large_sheets_and_bounds_are_printed() {
    let room = Room::new("large");
    let got = stepped(&room, &text(32, "31", &["+1-31:1000000000", "+31-32:1000000000"]), None);
    assert_eq!((got.status, got.told.as_str()), (Some(0), ""));
    assert_eq!(got.output.lines().filter(|line| line.starts_with("after=block ")).count(), 32);
    assert!(got.output.contains("after=block 32\nplace=1803 rule=+1-31:1000000000\n"), "{}", got.output);
    assert!(got.output.ends_with("after=clearing\nplace=1925 rule=+1-32:2000000000\n"), "{}", got.output);
}
