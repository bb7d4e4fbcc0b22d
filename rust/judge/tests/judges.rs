//! The two judges against each other on small sheets: least bounds, keys that are spoilt a little, and scripts; and the list of
//! terms of bank sheets against document 01.

use judge::banking::list;
use judge::brute;
use judge::graph::{self, Closure};
use judge::library::DONE;
use judge::marking::due;
use judge::marking::pairs::Pair;
use judge::meaning::{largest_bound, rules, size, terms, Rule, Term};
use judge::plain;
use judge::random::Random;
use judge::sheets::Sheet;

/// Can the term exceed the bound on this sheet?
fn exceeds(n: usize, held: &[Rule], term: Term, bound: i64) -> bool {
    let above = Rule { term, bound }.opposite();
    brute::has_assignment(n, &[held, &[above]].concat())
}

#[test]
fn least_bounds_are_least() {
    for number in 0..300 {
        let sheet = Sheet::small(&mut Random::new(7, number));
        let held = rules(sheet.n, &sheet.table);
        let Some(closure) = Closure::of(sheet.n, &held) else {
            continue;
        };
        // A term that has a largest value has it at integers without a gap wider than M (see `brute`), for one of the two
        // steps would raise it, or neither changes it. So it is at most twice n times M.
        let beyond = 2 * sheet.n as i64 * largest_bound(&held) as i64;
        for term in terms(sheet.n) {
            let (met, exceeded) = match closure.least(&term) {
                Some(least) => (!exceeds(sheet.n, &held, term, least as i64), least as i64 - 1),
                None => (true, beyond),
            };
            assert!(met && exceeds(sheet.n, &held, term, exceeded), "{term} on\n{sheet}");
        }
    }
}

/// Drops a rule of the key or moves its bound by one.
fn spoil(key: &mut Vec<Rule>, random: &mut Random) {
    if key.is_empty() {
        return;
    }
    let at = random.below(key.len());
    match random.below(3) {
        0 => key[at].bound += 1,
        1 => key[at].bound -= 1,
        _ => _ = key.remove(at),
    }
}

#[test]
fn spoilt_keys_are_judged_alike() {
    let mut wrong_keys = 0;
    for number in 0..2000 {
        let mut random = Random::new(8, number);
        let Sheet { n, hidden, mut table } = Sheet::small(&mut random);
        let held = rules(n, &table);
        let Some(of_sheet) = Closure::of(n, &held) else {
            continue;
        };
        assert_eq!(plain::key(n, hidden, &mut table, &mut vec![0; size(n)]), DONE);
        let mut key = rules(n, &table);
        spoil(&mut key, &mut random);
        let wrong =
            Closure::of(n, &key).is_none_or(|of_key| graph::difference(n, hidden, &of_sheet, &of_key).is_some());
        let found = brute::wrong_on(n, hidden, &held, &key);
        assert_eq!(found.is_some(), wrong, "sheet {number}: {held:?}, hidden {hidden:#b}, key {key:?}");
        wrong_keys += usize::from(wrong);
    }
    assert!(wrong_keys > 500, "too few wrong keys: {wrong_keys}");
}

#[test]
fn scripts_are_judged_alike() {
    // neither, too narrow, too wide, both
    let mut seen = [0; 4];
    for number in 0..4000 {
        let pair = Pair::small(&mut Random::new(9, number));
        let rules = due::rules(&pair.sheet, &pair.script);
        if !rules.small() {
            continue;
        }
        let found = rules.by_paths();
        assert_eq!(found, rules.by_trying(), "pair {number}: {:?}, {:?}", pair.sheet, pair.script);
        seen[2 * usize::from(found.wide) + usize::from(found.narrow)] += 1;
    }
    assert!(seen.iter().all(|&count| count > 50), "too few of a kind: {seen:?}");
}

/// Quantity 3 starts at 8, and +1+3 has place 10; of n quantities there are 2n² places, each with one spelling.
#[test]
fn the_list_of_terms_has_the_documents_places() {
    let stated = [("+1", 0), ("-1", 1), ("+2", 2), ("-2", 3), ("+1+2", 4), ("-1-2", 7), ("+3", 8), ("+1+3", 10)];
    for (term, place) in stated {
        assert_eq!(list::place(term), Some(place), "{term}");
    }
    for term in ["+1+1", "-2-2", "+1-1", "+2+1", "-3+2", "+33", "+1+33", "1", "+01", "+1+2+3", ""] {
        assert_eq!(list::place(term), None, "{term}");
    }
    for n in 1..=32 {
        assert_eq!(list::spellings(n).len(), size(n));
        assert!(terms(n).iter().enumerate().all(|(place, term)| list::place(&term.to_string()) == Some(place)));
    }
}
