//! A loose or tight verdict: its rule, which is due, and integers that show it, which are free.

use super::due;
use super::first::Allowed;
use super::integers;
use super::verdict::Rules;
use crate::due::key;
use crate::meaning::{rules, Rule, LIMIT};
use crate::text::paper::Paper;

pub struct Shown {
    pub name: &'static str,
    /// the rules of both papers as they are written
    written: Rules,
    /// the rules of which one is named, by place; none where the sheet allows nothing
    listed: Option<Vec<Rule>>,
    /// where in this list the rule stands
    at: usize,
    /// the integers that are to break it
    allowed: Allowed,
    /// Is the script too narrow, be it also too wide?
    narrow: bool,
    /// whether integers show the verdict, be the rule as it may
    by: fn(&Rules, &[i64]) -> Result<(), String>,
}

impl Shown {
    /// The first rule of the key is named that some assignment of the script breaks.
    pub fn loose(sheet: &Paper, script: &Paper, narrow: bool) -> Result<Shown, String> {
        let written = due::rules(sheet, script);
        let listed = key(&sheet.sheet())?.map(|key| rules(sheet.n, &key));
        let allowed = Allowed::by(written.n, &written.script);
        Shown { name: "loose", written, listed, at: 0, allowed, narrow, by: integers::loose }.named()
    }

    /// The first rule of the script's table is named that some assignment of the sheet breaks.
    pub fn tight(sheet: &Paper, script: &Paper) -> Result<Shown, String> {
        let written = due::rules(sheet, script);
        let listed = Some(rules(script.n, &script.sheet().table));
        let allowed = Allowed::by(written.n, &written.sheet);
        Shown { name: "tight", written, listed, at: 0, allowed, narrow: true, by: integers::tight }.named()
    }

    /// The same with the place of its rule in the list.
    fn named(mut self) -> Result<Shown, String> {
        if let Some(listed) = &self.listed {
            let at = self.allowed.first_broken(listed)?;
            self.at = at.ok_or_else(|| format!("the judges differ: {}, but no rule can be broken", self.name))?;
        }
        Ok(self)
    }

    /// The rule that is due, none where the sheet allows nothing.
    pub fn rule(&self) -> Option<Rule> {
        self.listed.as_ref().map(|listed| listed[self.at])
    }

    /// Judges the integers: whether they show the verdict and break the rule.
    pub fn integers(&self, values: &[i64]) -> Result<(), String> {
        integers::in_range(self.written.n, values)?;
        (self.by)(&self.written, values)?;
        match self.rule().filter(|rule| rule.met(values)) {
            Some(rule) => Err(format!("the integers meet the rule {rule}")),
            None => Ok(()),
        }
    }

    /// The kinds of a verdict with these integers, of which a run has to meet all.
    pub fn kinds(&self, values: &[i64]) -> Result<Vec<String>, String> {
        let Some(listed) = &self.listed else {
            return Ok(vec![format!("{}, no rule", self.name)]);
        };
        let (rule, hidden) = (listed[self.at], self.written.hidden != 0);
        let met = [
            (rule.term.second.is_none(), "rule of one quantity"),
            (rule.term.second.is_some(), "rule of two quantities"),
            (rule.bound.abs() > LIMIT, "rule past the limits"),
            (!self.written.script.contains(&rule), "rule not as it is written"),
            (self.allowed.tried(&rule), "rule tried"),
            (self.at > 0, "behind a rule that holds"),
            (self.allowed.first_broken(&listed[self.at + 1..])?.is_some(), "before another rule that can be broken"),
            (hidden, "some hidden"),
            (hidden && integers::tried(&self.written, values), "hidden integers tried"),
            (self.narrow, "and narrow"),
        ];
        Ok(met.iter().filter(|(met, _)| *met).map(|(_, kind)| format!("{}, {kind}", self.name)).collect())
    }
}
