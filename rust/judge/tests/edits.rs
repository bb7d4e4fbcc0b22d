//! The trial of wrong programs, over a check that is stated by hand: a function is proved while its body is the right one and
//! what it calls is proved.

#[path = "../../command/tests/temporary/mod.rs"]
mod temporary;

use judge::wrong::body::is_in_body;
use judge::wrong::edit::Edit;
use judge::wrong::log::{said, Said};
use judge::wrong::tally::Tally;
use judge::wrong::trial::Trial;
use std::cell::Cell;
use std::fs;
use temporary::Folder;

const SOURCE: &str = "\
const TWO: i64 = 2;

pub fn low(a: i64) -> i64
    ensures { result ≡ a + 1 }
{
    a + 1
}

const THREE: i64 = 3;

impl Rule {
    // The high one.
    pub fn high(self) -> i64
        ensures { result ≡ 3 }
    {
        if true {
            low(TWO)
        }
    }
}
";

fn edit(name: &str, function: &str, old: &str, new: &str) -> Edit {
    Edit::parse(name, &format!("# {function}: a mistake\nfile: src/lib.rt\nold: {old}\nnew: {new}\n")).expect(name)
}

/// What a check would print of the source.
fn checked(source: &str) -> String {
    if !source.contains("fn low") {
        return "src/lib.rt:9:17: error[unknown-name]: cannot find value `low`\n".to_string();
    }
    let low = match source.contains("a + 1\n") {
        true => "proved",
        false => "no proof: expected answers in ./proofs/low/Answers.antt; `search` did not prove `returns`",
    };
    let high = match (low, source.contains("low(TWO)") && source.contains("TWO: i64 = 2;")) {
        ("proved", true) => "proved",
        ("proved", false) => "not proved",
        _ => "not proved; it calls `made::low`, which is not proved",
    };
    format!("./proofs/Rule/high/Answers.antt:1:1: error: `returns`: differs\nfn made::low: {low}\nfn made::Rule::high: {high}\n")
}

/// What is printed of the edits, the counts, and the number of checks. The source is left as it was.
fn tried(test: &str, edits: Vec<Edit>) -> (String, Tally, usize) {
    let (lines, tally, checks, ()) = with_trial(test, |trial| trial.all(edits).expect("files can be read and written"));
    (lines, tally, checks)
}

/// The same of what a trial does, and its answer.
fn with_trial<A>(test: &str, step: impl FnOnce(&mut Trial) -> A) -> (String, Tally, usize, A) {
    let folder = Folder::new(test);
    let file = folder.path().join("src/lib.rt");
    fs::create_dir(folder.path().join("src")).expect("a folder can be made");
    fs::write(&file, SOURCE).expect("a file can be written");
    let (mut out, mut tally, checks) = (Vec::new(), Tally::default(), Cell::new(0));
    let check = || {
        checks.set(checks.get() + 1);
        fs::read_to_string(&file).map(|source| checked(&source))
    };
    let answer =
        step(&mut Trial { name: "made", folder: folder.path(), check: &check, out: &mut out, tally: &mut tally });
    assert_eq!(fs::read_to_string(&file).expect("the source can be read"), SOURCE);
    (String::from_utf8(out).expect("lines are UTF-8"), tally, checks.get(), answer)
}

#[test]
fn wrong_programs_are_refused_each_by_its_own_function() {
    let edits = vec![
        edit("other", "made::low", "    a + 1", "    a - 1"),
        edit("zero", "made::Rule::high", "low(TWO)", "low(0)"),
        edit("twice", "made::low", "    a + 1", "    a + 2"),
        edit("constant", "made::Rule::high", "TWO: i64 = 2;", "TWO: i64 = 3;"),
    ];
    let (lines, tally, checks) = tried("refused", edits);
    let due = "made/other: refused: `search` did not prove `returns`\n\
        made/twice: refused: `search` did not prove `returns`\n\
        made/constant: refused: `returns`: differs\n\
        made/zero: refused: `returns`: differs\n";
    assert_eq!((lines.as_str(), tally), (due, Tally { refused: 4, not: 0 }));
    // as it stands; low with high, which is masked; low again; the constant alone; high again
    assert_eq!(checks, 5);
}

#[test]
fn what_is_not_refused_is_told() {
    let edits = vec![
        edit("same", "made::low", "    a + 1", "    a + 1"),
        edit("comment", "made::Rule::high", "// The high one.", "// The lower one."),
        edit("absent", "made::low", "a + 7", "a + 8"),
        edit("often", "made::low", "i64", "i32"),
        edit("unknown", "made::lower", "    a + 1", "    a + 2"),
        edit("wrongly named", "made::Rule::high", "    a + 1", "    a + 3"),
        edit("no function", "made::low", "pub fn low(", "pub fn law("),
    ];
    let (lines, tally, _) = tried("not", edits);
    let mut lines: Vec<&str> = lines.lines().collect();
    lines.sort();
    let due = [
        "made/absent: NOT refused: its old text stands 0 times in src/lib.rt",
        "made/comment: NOT refused: the function is proved with it",
        "made/no function: NOT refused: it does not reach the proofs: cannot find value `low`",
        "made/often: NOT refused: its old text stands 5 times in src/lib.rt",
        "made/same: NOT refused: the function is proved with it",
        "made/unknown: NOT refused: the check names no function made::lower",
        "made/wrongly named: NOT refused: what fails is a function that this one calls",
    ];
    assert_eq!(lines, due);
    assert_eq!(tally, Tally { refused: 0, not: 7 });
}

#[test]
fn an_edit_that_fits_no_more_is_told_without_a_check() {
    let edits = [
        edit("absent", "made::low", "a + 7", "a + 8"),
        edit("there", "made::low", "    a + 1", "    a + 2"),
        edit("often", "made::low", "i64", "i32"),
    ];
    let (lines, tally, checks, fitting) =
        with_trial("fitting", |trial| trial.fitting(&edits).expect("files can be read"));
    let due = "made/absent: NOT refused: its old text stands 0 times in src/lib.rt\n\
        made/often: NOT refused: its old text stands 5 times in src/lib.rt\n";
    assert_eq!((lines.as_str(), tally, checks, fitting), (due, Tally { refused: 0, not: 2 }, 0, 1));
}

#[test]
fn an_edit_is_read_as_it_is_spelled() {
    let fault = |text: &str| Edit::parse("e", text).expect_err(text);
    assert_eq!(fault("no function\nfile: src/a\nold: a\nnew: b\n"), "its first line names no function");
    assert_eq!(fault("# a mistake: of nobody\nfile: src/a\nold: a\nnew: b\n"), "its first line names no function");
    assert_eq!(fault("# c::f: m\nfile: src/a\nold: a\n"), "it has no pair of 'old:' and 'new:'");
    assert_eq!(fault("# c::f: m\nfile: src/a\nnew: a\n"), "it has a 'new:' without an 'old:'");
    assert_eq!(fault("# c::f: m\nfile: proofs/a\nold: a\nnew: b\n"), "'proofs/a' is no file under src/ or specs/");
    assert_eq!(fault("# c::f: m\nfile: src/../a\nold: a\nnew: b\n"), "'src/../a' is no file under src/ or specs/");

    let read =
        Edit::parse("e", "# c::f: m\nfile: src/a\nold:   x\nnew:\nold: y: z\nnew: w\n").expect("it is spelled well");
    let pairs: Vec<_> = read.replacements.iter().map(|r| (r.file.as_str(), r.old.as_str(), r.new.as_str())).collect();
    assert_eq!(pairs, [("src/a", "  x", ""), ("src/a", "y: z", "w")]);
    assert_eq!(read.function, "c::f");
}

#[test]
fn a_place_in_a_body_is_known() {
    let at = |text: &str| SOURCE.find(text).expect(text);
    assert!(is_in_body(SOURCE, at("    a + 1"), "low"));
    assert!(is_in_body(SOURCE, at("low(TWO)"), "high"));
    assert!(!is_in_body(SOURCE, at("low(TWO)"), "low"));
    for outside in
        ["TWO: i64", "pub fn low", "result ≡ a + 1", "THREE", "// The high one.", "pub fn high", "result ≡ 3"]
    {
        assert!(!is_in_body(SOURCE, at(outside), "low"), "{outside}");
        assert!(!is_in_body(SOURCE, at(outside), "high"), "{outside}");
    }
}

#[test]
fn a_log_says_of_each_function_whether_it_is_proved() {
    let log = "./proofs/m/g/Proof.antt:5:1: error: `g_spec`: `close` was not admitted\n\
        ./proofs/m/f/Answers.antt:1:2: note: nothing\n\
        ./proofs/m/f/Answers.antt:1:2: error: `returns`: the first\n\
        ./proofs/m/f/Answers.antt:3:4: error: `spec`: the second\n\
        ./proofs/m/Invariants.antt:3:4: error: `loop`: of another\n\
        ./proofs/m/n/Invariants.antt:3:4: error: `loop`: of its own\n\
        fn c::m::n: not proved\n\
        fn c::m::f: not proved\n\
        fn c::m::g: not proved; it calls `c::m::f`, which is not proved\n\
        fn c::m::h: proved\n\
        fn c::m::k: not proved; it calls `c::m::f` and `c::m::g`, which are not proved\n\
        fn c::m::l: no proof: expected answers in ./proofs/m/l/Answers.antt; `search` did not prove `returns`\n";
    assert_eq!(said(log, "c::m::f"), Said::Refused("`returns`: the first".into()));
    assert_eq!(said(log, "c::m::g"), Said::Masked);
    assert_eq!(said(log, "c::m::h"), Said::Proved);
    assert_eq!(said(log, "c::m::i"), Said::Nothing);
    assert_eq!(said(log, "c::m::k"), Said::Masked);
    assert_eq!(said(log, "c::m::l"), Said::Refused("`search` did not prove `returns`".into()));
    assert_eq!(said(log, "c::m::n"), Said::Refused("`loop`: of its own".into()));
}
