//! Names of all kinds, in the table and in what is told beside it.

use crate::room::{ran, Room, AS_EQUAL, EQUAL, HEADER};

#[test]
fn names_are_quoted_where_they_must_be_and_sorted_by_bytes() {
    let room = Room::new("names");
    for name in [&b"a,b"[..], b"a\"b\"", b"a\nb", b"a\rb", b"a b", b"B", b"\xff\xfe", "é".as_bytes()] {
        room.hand_in(name, EQUAL);
    }
    let due = format!(
        "{HEADER}B{AS_EQUAL}\n\"a\nb\"{AS_EQUAL}\n\"a\\rb\"{AS_EQUAL}\na b{AS_EQUAL}\n\"a\"\"b\"\"\"{AS_EQUAL}\n\
         \"a,b\"{AS_EQUAL}\n\\xc3\\xa9{AS_EQUAL}\n\\xff\\xfe{AS_EQUAL}\n"
    );
    let summary = "acornsled: 8 scripts: 8 equal, 0 loose, 0 tight, 0 refused\n";
    assert_eq!(ran(&mut room.sitting(&["sheet", "scripts"])), (Some(0), due, summary.into()));
}

/// The rows of scripts with these names, and what is told beside them.
fn formulas(test: &str, names: &[&[u8]]) -> (String, String) {
    let room = Room::new(test);
    names.iter().for_each(|name| room.hand_in(name, EQUAL));
    let (status, table, told) = ran(&mut room.sitting(&["--no-header", "sheet", "scripts"]));
    assert_eq!(status, Some(0));
    (table, told)
}

#[test]
fn names_like_formulas_are_told_once_and_stay_as_they_are() {
    let names = [&b"=1+1"[..], b"+1", b"-1", b"@x", b"\tx", b"\rx", b"\nx", b" x", b"1-2", b"x=1"];
    let (table, told) = formulas("formulas", &names);
    let due = format!(
        "\\tx{AS_EQUAL}\n\"\nx\"{AS_EQUAL}\n\"\\rx\"{AS_EQUAL}\n x{AS_EQUAL}\n+1{AS_EQUAL}\n-1{AS_EQUAL}\n\
         1-2{AS_EQUAL}\n=1+1{AS_EQUAL}\n@x{AS_EQUAL}\nx=1{AS_EQUAL}\n"
    );
    assert_eq!(table, due);
    let due = "acornsled: names like formulas: 8, as \"\\\\tx\"; let a spreadsheet take the column script as text\n\
        acornsled: 10 scripts: 10 equal, 0 loose, 0 tight, 0 refused\n";
    assert_eq!(told, due);
}

#[test]
fn each_beginning_of_a_formula_is_known() {
    for name in ["=", "+", "-", "@", " "] {
        let (table, told) = formulas("formula", &[name.as_bytes(), b"x"]);
        assert_eq!(table, format!("{name}{AS_EQUAL}\nx{AS_EQUAL}\n"));
        let due = format!(
            "acornsled: names like formulas: 1, as \"{name}\"; let a spreadsheet take the column script as text\n\
             acornsled: 2 scripts: 2 equal, 0 loose, 0 tight, 0 refused\n"
        );
        assert_eq!(told, due);
    }
}
