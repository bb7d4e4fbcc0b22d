//! Help, versions and wrong use.

mod room;

use room::{acornsled, ran, ran_on, Ran, Room, SHEET};

const VERSION: &str = concat!("acornsled ", env!("CARGO_PKG_VERSION"), "\n");

fn called(arguments: &[&str]) -> Ran {
    ran(&mut acornsled(arguments))
}

#[test]
fn help_goes_to_standard_output() {
    let asked = [
        (&["--help"][..], "acornsled - "),
        (&["-h"], "acornsled - "),
        (&["help"], "acornsled - "),
        (&["key", "--help"], "acornsled key - "),
        (&["key", "-h"], "acornsled key - "),
        (&["key", "a", "b", "c", "--help"], "acornsled key - "),
        (&["help", "key"], "acornsled key - "),
        (&["mark", "--help"], "acornsled mark - "),
        (&["mark", "a", "-h"], "acornsled mark - "),
        (&["help", "mark"], "acornsled mark - "),
        (&["ask", "--help"], "acornsled ask - "),
        (&["ask", "a", "b", "-h"], "acornsled ask - "),
        (&["help", "ask"], "acornsled ask - "),
        (&["steps", "--help"], "acornsled steps - "),
        (&["steps", "a", "2", "-h"], "acornsled steps - "),
        (&["help", "steps"], "acornsled steps - "),
        (&["bank", "--help"], "acornsled bank - "),
        (&["bank", "--check", "a", "b", "-h"], "acornsled bank - "),
        (&["help", "bank"], "acornsled bank - "),
        (&["explain", "--help"], "acornsled explain - "),
        (&["help", "explain"], "acornsled explain - "),
    ];
    for (arguments, beginning) in asked {
        let got = called(arguments);
        assert_eq!((got.status, got.told.as_str()), (Some(0), ""), "{arguments:?}");
        assert!(got.output.starts_with(beginning), "{arguments:?}: {}", got.output);
        assert!(got.output.contains("\nusage: acornsled "), "{arguments:?}");
        assert!(got.output.contains("\nexit status:"), "{arguments:?}");
        assert!(got.output.lines().all(|line| line.len() <= 100), "{arguments:?}");
    }
}

#[test]
fn the_version_goes_to_standard_output() {
    let asked = [
        &["--version"][..],
        &["-V"],
        &["key", "--version"],
        &["mark", "-V"],
        &["ask", "-V"],
        &["steps", "-V"],
        &["bank", "--check", "-V"],
        &["explain", "--version"],
    ];
    for arguments in asked {
        assert_eq!(called(arguments), Ran { status: Some(0), output: VERSION.into(), told: String::new() });
    }
}

/// The pages show what the commands print.
#[test]
fn the_examples_of_the_help_hold() {
    let room = Room::new("examples");
    let sheet = room.file("sheet.txt", SHEET);
    let script = room.file("script.txt", "quantities=3\nhidden=2\nrules=1\nrule=+1:3\n");
    let shown = |command: &str| {
        let page = called(&[command, "--help"]).output;
        let (_, after) = page.rsplit_once("\n    $ acornsled ").expect("the page has an example");
        after.lines().skip(1).map(|line| format!("{}\n", line.trim_start())).collect::<String>()
    };
    assert_eq!(ran(acornsled(["key"]).arg(&sheet)).output, shown("key"));
    assert_eq!(ran(acornsled(["mark"]).arg(&sheet).arg(script)).output, shown("mark"));
    let page = called(&["ask", "--help"]).output;
    let (_, after) = page.rsplit_once("\n    $ cat questions.txt\n").expect("the page shows questions");
    let lines = after.lines().take_while(|line| !line.contains('$')).map(|line| format!("{}\n", line.trim_start()));
    let questions = room.file("questions.txt", lines.collect::<String>());
    assert_eq!(ran(acornsled(["ask"]).arg(&sheet).arg(questions)).output, shown("ask"));
    assert_eq!(ran(acornsled(["steps"]).arg(&sheet)).output, shown("steps"));
    assert_eq!(ran(acornsled(["bank"]).arg(&sheet)).output, shown("bank"));
    let page = called(&["bank", "--help"]).output;
    let (_, after) = page.split_once("\n    $ acornsled bank --check sheet.txt\n").expect("the page shows a check");
    let lines: String =
        after.lines().take_while(|line| !line.contains('$')).map(|line| format!("{}\n", &line[4..])).collect();
    let got = ran(acornsled(["bank", "--check", "sheet.txt"]).current_dir(room.at("")));
    assert_eq!(got.output + &got.told, lines);
    assert_eq!(ran(acornsled(["explain"]).arg(&sheet)).output, shown("explain"));

    let page = called(&["--help"]).output;
    let lines = page.lines().filter_map(|line| line.strip_prefix("    ")).filter(|line| line.contains('='));
    let text: String = lines.filter_map(|line| Some(format!("{}\n", line.split(' ').next()?))).collect();
    assert_eq!(text, SHEET);
}

#[test]
fn wrong_use_is_told_with_the_usage_and_status_2() {
    let wrong = [
        (&[][..], "no command is named", "key [FILE]"),
        (&["kye"], "there is no command kye", "key [FILE]"),
        (&["help", "kye"], "there is no command kye", "key [FILE]"),
        (&["help", "key", "mark"], "help is given for one command at a time", "key [FILE]"),
        (&["--version", "foo"], "nothing is due after --version", "key [FILE]"),
        (&["-V", "--help"], "nothing is due after --version", "key [FILE]"),
        (&["--halp"], "there is no command --halp", "key [FILE]"),
        (&["key", "a", "b"], "at most 1 file is due, and 2 are given", "key [FILE]"),
        (&["key", "--all"], "there is no option --all; a file of that name is given after --", "key [FILE]"),
        (&["key", "--", "a", "--help"], "at most 1 file is due, and 2 are given", "key [FILE]"),
        (&["mark"], "2 files are due, and 0 are given", "mark SHEET SCRIPT"),
        (&["mark", "a"], "2 files are due, and 1 is given", "mark SHEET SCRIPT"),
        (&["mark", "a", "b", "c"], "2 files are due, and 3 are given", "mark SHEET SCRIPT"),
        (
            &["mark", "a", "b", "-x"],
            "there is no option -x; a file of that name is given after --",
            "mark SHEET SCRIPT",
        ),
        (&["ask"], "2 files are due, and 0 are given", "ask SHEET QUESTIONS"),
        (&["ask", "a"], "2 files are due, and 1 is given", "ask SHEET QUESTIONS"),
        (&["ask", "a", "b", "c"], "2 files are due, and 3 are given", "ask SHEET QUESTIONS"),
        (&["ask", "a", "-x"], "there is no option -x; a file of that name is given after --", "ask SHEET QUESTIONS"),
        (&["steps"], "no sheet is named", "steps SHEET [QUANTITY]"),
        (
            &["steps", "a", "2", "5"],
            "a sheet and at most one quantity are due, and 3 arguments are given",
            "steps SHEET [QUANTITY]",
        ),
        (
            &["steps", "a", "-2"],
            "there is no option -2; a file of that name is given after --",
            "steps SHEET [QUANTITY]",
        ),
        (&["bank", "a", "b"], "at most 1 file is due, and 2 are given", "bank [--check] [FILE]"),
        (&["bank", "--check", "a", "b"], "at most 1 file is due, and 2 are given", "bank [--check] [FILE]"),
        (
            &["bank", "--chekc", "a"],
            "there is no option --chekc; a file of that name is given after --",
            "bank [--check] [FILE]",
        ),
        (&["key", "--check", "a"], "there is no option --check; a file of that name is given after --", "key [FILE]"),
        (&["explain", "a", "b"], "at most 1 file is due, and 2 are given", "explain [FILE]"),
        (
            &["key", "--\n\x1b[2J"],
            "there is no option --\\n\\u{1b}[2J; a file of that name is given after --",
            "key [FILE]",
        ),
    ];
    for (arguments, message, usage) in wrong {
        let got = called(arguments);
        assert_eq!((got.status, got.output.as_str()), (Some(2), ""), "{arguments:?}");
        let head = format!("acornsled: {message}\nusage: acornsled {usage}\n");
        assert!(got.told.starts_with(&head), "{arguments:?}: {}", got.told);
    }
}

/// After `--` a name may begin with a hyphen.
#[test]
fn two_hyphens_end_the_options() {
    let room = Room::new("hyphens");
    room.file("--help", SHEET);
    let folder = room.at("");
    let got = ran(acornsled(["key", "--", "--help"]).current_dir(&folder));
    assert_eq!((got.status, got.told.as_str()), (Some(0), ""));
    assert!(got.output.starts_with("quantities=3\nhidden=2\nrules=2\n"), "{}", got.output);
    // `-` stays standard input
    let got = ran_on(acornsled(["explain", "--", "-"]).current_dir(&folder), SHEET.as_bytes());
    assert_eq!(got.status, Some(0));
}
