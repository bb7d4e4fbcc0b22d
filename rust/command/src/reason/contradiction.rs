//! Refusals with 5: which rules contradict each other.

use super::form::RuleLine;
use super::written::{listed, Written};
use super::{fractions, integers};

/// The most rules that are shown one by one.
const SHOWN: usize = 12;

/// Which rules of an accepted text that no integers satisfy contradict each other.
pub fn told(written: &Written) -> Vec<String> {
    let lines = smallest(written);
    let mut details = vec![format!("the rules of lines {} contradict each other:", listed(&lines))];
    details.extend(lines.iter().take(SHOWN).map(|&line| {
        let shown = String::from_utf8_lossy(written.lines.bytes(line)).into_owned();
        format!("    line {line}: {shown}")
    }));
    if lines.len() > SHOWN {
        details.push(format!("    and {} more", lines.len() - SHOWN));
    }
    let rules: Vec<RuleLine> = written.rules.iter().map(|&(_, rule)| rule).collect();
    if fractions::satisfy(written.quantities, &rules) {
        details.push("fractions satisfy all rules, but the quantities are integers".to_string());
    }
    details
}

/// Lines whose rules alone no integers satisfy, and of which none can be left out: whatever can be is left out, first many at
/// once, at last one by one. The library decides each time.
pub fn smallest(written: &Written) -> Vec<usize> {
    let mut kept: Vec<usize> = written.rules.iter().map(|&(line, _)| line).collect();
    let mut size = kept.len().div_ceil(2);
    while size > 0 {
        let mut at = 0;
        while at < kept.len() {
            let end = (at + size).min(kept.len());
            let without: Vec<usize> = kept[..at].iter().chain(&kept[end..]).copied().collect();
            if integers::satisfying(written, &without).is_none() {
                kept = without;
            } else {
                at = end;
            }
        }
        size = if size == 1 { 0 } else { size.div_ceil(2) };
    }
    kept
}
