//! The judge over the library that it is linked with. With the feature `plain` that is the stand-in, so that the
//! declarations of the crate `acornsled` are tried without an archive.

use judge::alike;
use judge::asking;
use judge::banking;
use judge::enums;
use judge::linked::Linked;
use judge::marking;
use judge::run;
use judge::stepping;
use judge::table_marking;
use judge::text;

#[test]
fn the_linked_library_is_accepted_on_sheets() {
    let counts = run::all(&Linked, 1, 1000).unwrap_or_else(|failure| panic!("{failure}"));
    assert_eq!(counts.sheets, 1000);
    // tightest keys with bounds within a sheet's limits and past them
    assert!(counts.again > 0 && counts.far > 0, "{counts}");
}

#[test]
fn the_linked_library_is_accepted_on_pairs_of_sheets() {
    // so many that every kind of pair has to be met
    alike::run::all(&Linked, 1, 2000).unwrap_or_else(|failure| panic!("{failure}"));
}

#[test]
fn the_linked_library_is_accepted_on_hiding_steps() {
    // so many that every kind of call has to be met
    stepping::run::all(&Linked, 1, 5000).unwrap_or_else(|failure| panic!("{failure}"));
}

#[test]
fn the_linked_library_is_accepted_on_lists_of_questions() {
    // so many that every kind of call has to be met
    asking::run::all(&Linked, 1, 5000).unwrap_or_else(|failure| panic!("{failure}"));
}

#[test]
fn the_linked_library_is_accepted_on_texts() {
    // so many that every kind of reply has to be met
    text::run::all(&Linked, 1, 2000).unwrap_or_else(|failure| panic!("{failure}"));
}

#[test]
fn the_linked_library_is_accepted_on_bank_sheets() {
    // so many that every kind of text has to be met
    banking::run::all(&Linked, 1, 5000).unwrap_or_else(|failure| panic!("{failure}"));
}

#[test]
fn the_linked_library_is_accepted_on_pairs_of_texts() {
    // so many that every number and every kind of pair has to be met
    marking::run::all(&Linked, 1, 5000).unwrap_or_else(|failure| panic!("{failure}"));
}

#[test]
fn the_linked_library_is_accepted_on_pairs_of_tables() {
    // so many that every kind of call has to be met
    table_marking::run::all(&Linked, 1, 5000).unwrap_or_else(|failure| panic!("{failure}"));
}

#[test]
fn the_crates_enums_say_what_the_numbers_say() {
    let counts = enums::run::all(1, 1000).unwrap_or_else(|failure| panic!("{failure}"));
    assert!(counts.table_pairs > 0);
    let numbers: Vec<u32> = counts.numbers.keys().copied().collect();
    assert_eq!(numbers, [1, 2, 3, 4, 7, 100, 101, 102]);
    let banks: Vec<u32> = counts.banks.keys().copied().collect();
    assert_eq!(banks, [0, 1, 2, 3, 4, 9]);
    let steps: Vec<u32> = counts.steps.keys().copied().collect();
    assert_eq!(steps, [0, 1, 3, 5]);
    let lists: Vec<u32> = counts.lists.keys().copied().collect();
    assert_eq!(lists, [0, 1, 3, 4, 5, 8]);
}
