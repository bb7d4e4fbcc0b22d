//! Rows of every kind.

use crate::room::{ran, Room, AS_EMPTY, AS_EQUAL, AS_LOOSE, AS_TIGHT, EQUAL, HEADER, LOOSE, SHEET, TIGHT};
use std::fs;
use std::path::Path;

/// The most bytes of a text.
const MOST_BYTES: usize = 65_536;

#[test]
fn every_kind_of_script_gets_its_row() {
    let room = Room::new("kinds");
    room.hand_in("equal", EQUAL);
    room.hand_in("loose", LOOSE);
    room.hand_in("tight", TIGHT);
    room.hand_in("empty", b"");
    room.hand_in("past limit", b"quantities=3\nhidden=2\nrules=2\nrule=+1:3\nrule=+1:2000000001\n");
    room.hand_in("cancelling", b"quantities=3\nhidden=2\nrules=1\nrule=+1-1:0\n");
    room.hand_in("no third line", b"quantities=3\nhidden=2\n");
    room.hand_in("names hidden", SHEET);
    room.hand_in("bytes of all kinds", &(0..=255).collect::<Vec<u8>>());
    // the largest size that is read as a text, and one byte more
    room.hand_in("large", &vec![b'\n'; MOST_BYTES]);
    room.hand_in("too large", &vec![b'\n'; MOST_BYTES + 1]);
    room.hand_in(".hidden from view", EQUAL);
    let due = format!(
        "{HEADER}.hidden from view{AS_EQUAL}\nbytes of all kinds{AS_EMPTY}\ncancelling,,4,script,4,,\nempty{AS_EMPTY}\n\
         equal{AS_EQUAL}\nlarge{AS_EMPTY}\nloose{AS_LOOSE}\nnames hidden,,7,both,0,,\nno third line,,2,script,3,,\n\
         past limit,,3,script,5,,\ntight{AS_TIGHT}\ntoo large,,1,script,0,,\n"
    );
    let summary = "acornsled: 12 scripts: 2 equal, 1 loose, 1 tight, 8 refused\n";
    assert_eq!(ran(&mut room.sitting(&["sheet", "scripts"])), (Some(0), due, summary.into()));
}

/// The values of one quantity hold no comma; where the sheet allows nothing a loose script breaks no rule.
#[test]
fn a_loose_script_may_have_no_rule() {
    let room = Room::new("no-rule");
    room.put("sheet", b"quantities=1\nhidden=\nrules=2\nrule=+1:-1\nrule=-1:0\n");
    room.hand_in("free", b"quantities=1\nhidden=\nrules=0\n");
    room.hand_in("nothing too", b"quantities=1\nhidden=\nrules=2\nrule=+1:4\nrule=-1:-5\n");
    let due = format!("{HEADER}free,loose,,,,rule=,values=0\nnothing too{AS_EQUAL}\n");
    let summary = "acornsled: 2 scripts: 1 equal, 1 loose, 0 tight, 0 refused\n";
    assert_eq!(ran(&mut room.sitting(&["sheet", "scripts"])), (Some(0), due, summary.into()));
}

#[test]
fn bounds_and_values_may_be_negative() {
    let room = Room::new("negative");
    room.put("sheet", b"quantities=2\nhidden=\nrules=2\nrule=-1-2:-7\nrule=+2:-1\n");
    room.hand_in("all", b"quantities=2\nhidden=\nrules=1\nrule=+2:-1\n");
    let (status, table, _) = ran(&mut room.sitting(&["--no-header", "sheet", "scripts"]));
    // 0 and -1 are allowed by the script, and their sum, -1, is below 7
    assert_eq!((status, table.as_str()), (Some(0), "all,loose,,,,rule=-1-2:-7,\"values=0,-1\"\n"));
}

#[test]
fn one_script_and_none_are_counted_as_such() {
    let room = Room::new("few");
    let none = "acornsled: 0 scripts: 0 equal, 0 loose, 0 tight, 0 refused\n";
    assert_eq!(ran(&mut room.sitting(&["sheet", "scripts"])), (Some(0), HEADER.into(), none.into()));
    assert_eq!(ran(&mut room.sitting(&["--no-header", "sheet", "scripts"])), (Some(0), "".into(), none.into()));
    room.hand_in("one", TIGHT);
    let one = "acornsled: 1 script: 0 equal, 0 loose, 1 tight, 0 refused\n";
    let due = format!("{HEADER}one{AS_TIGHT}\n");
    assert_eq!(ran(&mut room.sitting(&["sheet", "scripts"])), (Some(0), due, one.into()));
}

/// The samples, and the table that the repository keeps of them.
#[test]
fn the_table_of_the_samples_is_the_one_that_is_due() {
    let root = Path::new(env!("CARGO_MANIFEST_DIR")).join("../..");
    let due = fs::read_to_string(root.join("tests/sitting.csv")).expect("there is a table");
    let room = Room::new("samples");
    let papers = [root.join("sheets/a.txt"), root.join("sheets/sitting")];
    let summary = "acornsled: 8 scripts: 1 equal, 2 loose, 1 tight, 4 refused\n";
    assert_eq!(ran(&mut room.sitting(&papers)), (Some(0), due, summary.into()));
}
