//! Of which kinds a pair of texts is. Kinds are finer than numbers: a run fails if it has not met them all.

use super::verdict::{Difference, Rules};
use crate::due::key;
use crate::graph::Closure;
use crate::library::Reply;
use crate::meaning::{largest_bound, rules, script_limit, Rule, LIMIT, MOST_QUANTITIES};
use crate::text::paper::Paper;
use crate::text::reader;

/// The number of a bound or another number past its limit.
const PAST: u32 = 3;

/// The sheet is refused, and perhaps the script.
pub fn of_sheet(text: &[u8], sheet: Reply, script: Option<Reply>) -> Vec<String> {
    let also = script.map_or(String::new(), |script| format!(", script {}", script.number));
    let mut kinds = vec![format!("sheet {}{also}", sheet.number)];
    if sheet.number == PAST && reader::script(text).is_ok() {
        kinds.push("sheet 3, within a script's limit".into());
    }
    kinds
}

/// The script alone is refused.
pub fn of_script(sheet: &Paper, text: &[u8], script: Reply) -> Vec<String> {
    let mut kinds = vec![format!("script {}", script.number)];
    if script.number == PAST {
        if reader::read(text, |hidden| script_limit(hidden) + 1).is_ok() {
            kinds.push("script 3, one past its limit".into());
        }
        // its list is then another, for which 7 would be due
        if reader::read(text, |_| script_limit(sheet.hidden)).is_ok() {
            kinds.push("script 3, within the limit of the sheet's list".into());
        }
    }
    kinds
}

/// The script does not fit the sheet, for these reasons.
pub fn of_mismatch(rules: &Rules, reasons: &[&str]) -> Vec<String> {
    let mut kinds = vec![format!("7 {}", reasons.join("+"))];
    if Closure::of(rules.n, &rules.sheet).is_none() {
        kinds.push("7, sheet without an assignment".into());
    }
    if rules.script.iter().any(|rule| rule.bound.abs() > script_limit(rules.hidden)) {
        kinds.push("7, past the limit of the sheet's list".into());
    }
    kinds
}

/// There is a verdict.
pub fn of_verdict(rules: &Rules, difference: Difference, enumerated: bool) -> Vec<String> {
    let verdict = match (difference.wide, difference.narrow) {
        (true, true) => "wide and narrow",
        (true, false) => "loose",
        (false, true) => "tight",
        (false, false) => "equal",
    };
    let all = u32::MAX >> (MOST_QUANTITIES - rules.n);
    let without = |held: &[Rule]| Closure::of(rules.n, held).is_none();
    let (no_sheet, no_script) = (without(&rules.sheet), without(&rules.script));
    let both = || rules.sheet.iter().chain(&rules.script);
    let far = |least: i64| rules.script.iter().filter(move |rule| rule.bound.abs() >= least);
    let met = [
        (rules.hidden == 0, "none hidden"),
        (rules.hidden == all, "all hidden"),
        (rules.hidden != 0 && rules.hidden != all, "some hidden"),
        (no_sheet, "sheet without an assignment"),
        (no_script, "script without an assignment"),
        (!no_sheet && !no_script, "both with an assignment"),
        (rules.by_fractions().number() != difference.number(), "not by fractions"),
        (both().any(doubled), "doubled"),
        (rules.n == MOST_QUANTITIES, "largest n"),
        (rules.sheet.iter().any(|rule| rule.bound.abs() == LIMIT), "sheet at its limit"),
        (rules.hidden != 0 && far(script_limit(rules.hidden)).next().is_some(), "script at its limit"),
        (far(LIMIT + 1).next().is_some(), "script past a sheet's limit"),
        (far(LIMIT + 1).any(doubled), "doubled past a sheet's limit"),
        (enumerated, "enumerated"),
    ];
    met.iter().filter(|(met, _)| *met).map(|(_, kind)| format!("{verdict}, {kind}")).collect()
}

/// The script is equal, and perhaps the sheet's own key, with a bound that no sheet may have.
pub fn of_own_key(sheet: &Paper, script: &Paper) -> Result<Vec<String>, String> {
    let farthest = script.rules.iter().map(|rule| rule.bound.abs()).max().unwrap_or(0);
    if farthest <= LIMIT || key(&sheet.sheet())? != Some(script.sheet().table) {
        return Ok(vec![]);
    }
    let mut kinds = vec!["equal, own key past a sheet's limit".into()];
    if largest_bound(&rules(sheet.n, &script.sheet().table)) == script_limit(sheet.hidden) as u64 {
        kinds.push("equal, own key at a script's limit".into());
    }
    Ok(kinds)
}

fn doubled(rule: &Rule) -> bool {
    rule.term.second == Some(rule.term.first)
}
