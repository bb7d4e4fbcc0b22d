//! Which rules are told to contradict each other, and whether fractions satisfy them.

mod random;

use acornsled::limits::script_bound;
use acornsled::{Paper, Refusal, Table};
use acornsled_command::reason::form::{self, RuleLine};
use acornsled_command::reason::written::Written;
use acornsled_command::reason::{contradiction, fractions, integers};
use random::{text, Random};

fn contradict(n: usize, rules: &[String]) -> bool {
    let table = Table::read(text(n, "", rules).as_bytes()).expect("the text is accepted");
    table.assignment() == Err(Refusal::NoAssignment)
}

/// The rules of the lines that are told contradict each other, and without any one of them they do not.
fn assert_smallest(n: usize, rules: &[String]) -> usize {
    let whole = text(n, "", rules);
    let written = Written::of(whole.as_bytes(), Paper::Sheet).expect("the text is accepted");
    let lines = contradiction::smallest(&written);
    let kept: Vec<String> = lines.iter().map(|line| rules[line - 4].clone()).collect();
    assert!(contradict(n, &kept), "{kept:?} of {rules:?}");
    for place in 0..kept.len() {
        let mut fewer = kept.clone();
        fewer.remove(place);
        assert!(!contradict(n, &fewer), "{fewer:?} of {kept:?}");
    }
    kept.len()
}

#[test]
fn no_rule_that_is_told_can_be_left_out() {
    let mut most = 0;
    for round in 0..3_000 {
        let mut random = Random(round);
        let n = random.below(6) + 1;
        let rules: Vec<String> = (0..random.below(20) + 2).map(|_| random.rule(n, 4)).collect();
        if contradict(n, &rules) {
            most = most.max(assert_smallest(n, &rules));
        }
    }
    assert!(most >= 5, "the rounds have large contradictions, not only ones of {most}");
}

/// The largest texts that there are: a chain through all quantities, among rules that do not matter.
#[test]
fn a_contradiction_is_found_in_the_longest_text() {
    let mut random = Random(7);
    let mut rules: Vec<String> = (1..32).map(|q| format!("+{q}-{}:0", q + 1)).collect();
    rules.extend(["+32:-1".to_string(), "-1:0".to_string()]);
    while rules.len() < 2_048 {
        let at = random.below(rules.len());
        rules.insert(at, random.rule(32, 4).replace(':', ":99999").replace(":99999-", ":99999"));
    }
    assert_eq!(assert_smallest(32, &rules), 33);
}

/// Rules of a script with 26 hidden quantities, the bounds as large as those of a key may be. All of them are even, so that
/// where fractions satisfy them integers do.
#[test]
fn no_rule_of_a_script_that_is_told_can_be_left_out() {
    let hidden: Vec<String> = (7..=32).map(|quantity| quantity.to_string()).collect();
    let mut most = 0;
    for round in 0..300 {
        let mut random = Random(round);
        let rules: Vec<String> = (0..random.below(20) + 2).map(|_| enlarged(&random.rule(6, 4))).collect();
        let whole = text(32, &hidden.join(","), &rules);
        let written = Written::of(whole.as_bytes(), Paper::Script).expect("the text is accepted");
        let read: Vec<RuleLine> = written.rules.iter().map(|&(_, rule)| rule).collect();
        let satisfied = fractions::satisfy(32, &read);
        let all: Vec<usize> = (4..4 + rules.len()).collect();
        assert_eq!(integers::satisfying(&written, &all).is_some(), satisfied, "{rules:?}");
        if satisfied {
            continue;
        }
        let kept: Vec<RuleLine> = contradiction::smallest(&written).iter().map(|line| read[line - 4]).collect();
        assert!(!fractions::satisfy(32, &kept), "{rules:?}");
        for place in 0..kept.len() {
            let fewer = [&kept[..place], &kept[place + 1..]].concat();
            assert!(fractions::satisfy(32, &fewer), "{rules:?}");
        }
        most = most.max(kept.len());
    }
    assert!(most >= 4, "the rounds have large contradictions, not only ones of {most}");
}

/// The rule with its bound, which is at most 4 in magnitude, as many times as a limit doubled 26 times allows.
fn enlarged(rule: &str) -> String {
    let (terms, bound) = rule.split_once(':').expect("a rule has a colon");
    format!("{terms}:{}", bound.parse::<i64>().expect("a bound is a number") * (script_bound(u32::MAX << 6) / 4))
}

/// Whether halves from -5 to 5 satisfy all rules: with bounds so small, and so few quantities, fractions do where these do.
fn tried(n: usize, rules: &[RuleLine]) -> bool {
    let range: Vec<i64> = (-10..=10).collect();
    let choices = range.len().pow(n as u32);
    (0..choices).any(|choice| {
        let doubled = |q: usize| range[choice / range.len().pow(q as u32 - 1) % range.len()];
        rules.iter().all(|rule| {
            let value = |minus: bool, number: i64| if minus { -number } else { number };
            let terms = std::iter::once(&rule.first).chain(&rule.second);
            let sum: i64 =
                terms.map(|term| value(term.minus, doubled(term.quantity.value().expect("it is small")))).sum();
            sum <= 2 * value(rule.minus, rule.bound.value().expect("it is small") as i64)
        })
    })
}

#[test]
fn fractions_are_judged_as_by_trying_halves() {
    let mut counts = [0; 3];
    for round in 0..6_000 {
        let mut random = Random(round);
        let n = random.below(3) + 1;
        let rules: Vec<String> = (0..random.below(6) + 1).map(|_| random.rule(n, 1)).collect();
        let lines: Vec<String> = rules.iter().map(|rule| format!("rule={rule}")).collect();
        let read: Vec<RuleLine> = lines.iter().map(|line| form::rule(line.as_bytes()).expect("it is a rule")).collect();
        let satisfied = fractions::satisfy(n, &read);
        assert_eq!(satisfied, tried(n, &read), "{rules:?}");
        let integers = !contradict(n, &rules);
        assert!(satisfied || !integers, "{rules:?}");
        counts[usize::from(satisfied) + usize::from(integers)] += 1;
    }
    // neither, fractions alone, and integers too
    assert!(counts.iter().all(|&count| count > 20), "{counts:?}");
}
