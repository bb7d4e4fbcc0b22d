//! The two lines that come with a loose or tight verdict, as document 01 spells them, without their ends.

use acornsled::Rule;

/// The rule, with no value where there is none.
pub fn rule(rule: Option<&Rule>) -> String {
    rule.map_or("rule=".to_string(), |rule| format!("rule={rule}"))
}

/// The integers.
pub fn values(values: &[i64]) -> String {
    let values: Vec<String> = values.iter().map(i64::to_string).collect();
    format!("values={}", values.join(","))
}
