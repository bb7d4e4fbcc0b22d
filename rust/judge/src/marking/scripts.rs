//! Scripts for a sheet: its key or what might be taken for it, with no change, one or several.

use super::pairs::need_halves;
use crate::graph::Closure;
use crate::library::DONE;
use crate::meaning::{rules, script_limit, size, terms, Rule, Term, LIMIT, NO_RULE};
use crate::plain;
use crate::random::Random;
use crate::sheets::Sheet;

/// A script under way: a table, in which places that name hidden quantities stay without a rule.
struct Draft<'a> {
    sheet: &'a Sheet,
    /// the sheet's least bounds, none where no integers satisfy it
    least: Option<Closure>,
    /// by place
    terms: Vec<Term>,
    /// the places of terms of visible quantities
    visible: Vec<usize>,
    table: Vec<i64>,
}

/// A script that fits the sheet, with bounds within a script's limit. A key's are, so that one without a change stays a key.
pub fn of(sheet: &Sheet, random: &mut Random) -> Sheet {
    let mut draft = Draft::new(sheet);
    draft.begin(random);
    for _ in 0..random.pick(&[0, 0, 1, 1, 1, 1, 2, 2, 3]) {
        draft.change(random);
    }
    draft.keep_limit();
    Sheet { n: sheet.n, hidden: sheet.hidden, table: draft.table }
}

/// The sheet's key as it is, or its own rules where it has none.
pub fn key(sheet: &Sheet) -> Sheet {
    let mut draft = Draft::new(sheet);
    draft.key();
    Sheet { n: sheet.n, hidden: sheet.hidden, table: draft.table }
}

impl Draft<'_> {
    /// Where many rules are, most of those that are changed alone follow from the others, so that all are changed too.
    const CHANGES: [fn(&mut Self, &mut Random); 15] = [
        Self::raise,
        Self::raise,
        Self::lower,
        Self::lower,
        Self::move_all,
        Self::move_all,
        Self::move_two,
        Self::drop,
        Self::drop,
        Self::drop_half,
        Self::add,
        Self::add,
        Self::add_far,
        Self::contradict,
        Self::need_halves,
    ];

    /// No rules yet.
    fn new(sheet: &Sheet) -> Draft<'_> {
        let least = Closure::of(sheet.n, &rules(sheet.n, &sheet.table));
        let terms = terms(sheet.n);
        let visible = (0..terms.len()).filter(|&place| !terms[place].names(sheet.hidden)).collect();
        Draft { sheet, least, terms, visible, table: vec![NO_RULE; size(sheet.n)] }
    }

    /// Begins with the key, the least bounds, the sheet's rules that name no hidden quantity, or nothing.
    fn begin(&mut self, random: &mut Random) {
        match random.below(10) {
            0..=4 => self.key(),
            5 | 6 => self.tightest(),
            7 | 8 => self.own(),
            _ => {}
        }
    }

    /// A sheet without an assignment has no key; its own rules are taken instead.
    fn key(&mut self) {
        let Sheet { n, hidden, table } = self.sheet;
        let mut key = table.clone();
        match plain::key(*n, *hidden, &mut key, &mut vec![0; size(*n)]) {
            DONE => self.table = key,
            _ => self.own(),
        }
    }

    fn tightest(&mut self) {
        for &place in &self.visible {
            self.table[place] = self.least(place).unwrap_or(NO_RULE);
        }
    }

    fn own(&mut self) {
        self.visible.iter().for_each(|&place| self.table[place] = self.sheet.table[place]);
    }

    fn change(&mut self, random: &mut Random) {
        // where nothing is visible there is nothing to change
        if !self.visible.is_empty() {
            random.pick(&Self::CHANGES)(self, random);
        }
    }

    fn raise(&mut self, random: &mut Random) {
        if let Some(place) = self.held(random) {
            self.table[place] += random.pick(&[1, 1, 1, 2, 1000]);
        }
    }

    fn lower(&mut self, random: &mut Random) {
        if let Some(place) = self.held(random) {
            self.table[place] -= random.pick(&[1, 1, 1, 2, 1000]);
        }
    }

    /// Every bound by one: upward, downward, or each as it comes.
    fn move_all(&mut self, random: &mut Random) {
        let (least, most) = random.pick(&[(1, 1), (-1, -1), (-1, 1)]);
        let held = self.table.iter_mut().filter(|bound| **bound != NO_RULE);
        held.for_each(|bound| *bound += random.within(least, most));
    }

    /// One bound upward and another downward: wide there and narrow here.
    fn move_two(&mut self, random: &mut Random) {
        self.raise(random);
        self.lower(random);
    }

    fn drop(&mut self, random: &mut Random) {
        if let Some(place) = self.held(random) {
            self.table[place] = NO_RULE;
        }
    }

    fn drop_half(&mut self, random: &mut Random) {
        self.table.iter_mut().filter(|_| random.chance(50)).for_each(|bound| *bound = NO_RULE);
    }

    /// A rule that just follows from the sheet, or is too strong or too weak by one; any where the term has no bound.
    fn add(&mut self, random: &mut Random) {
        let place = random.pick(&self.visible);
        let near = self.least(place).map(|least| least + random.within(-1, 1));
        let bound = near.unwrap_or_else(|| random.within(-4, 4));
        self.put(Rule { term: self.terms[place], bound });
    }

    /// A rule with a bound at a script's limit, or at the limit of one that hides fewer.
    fn add_far(&mut self, random: &mut Random) {
        let place = random.pick(&self.visible);
        let fewer = random.edge(self.sheet.hidden.count_ones() as usize + 1);
        let far = (LIMIT << fewer) - random.pick(&[0, 0, 1]);
        self.table[place] = random.pick(&[far, -far]);
    }

    /// A rule and its opposite: no integers are left, and no fractions.
    fn contradict(&mut self, random: &mut Random) {
        if let Some(place) = self.held(random) {
            self.put(Rule { term: self.terms[place], bound: self.table[place] }.opposite());
        }
    }

    /// Two visible quantities that only halves can satisfy.
    fn need_halves(&mut self, random: &mut Random) {
        if let Term { first, second: Some(second) } = self.terms[random.pick(&self.visible)] {
            need_halves(&mut self.table, first.quantity, second.quantity);
        }
    }

    fn put(&mut self, rule: Rule) {
        let place = self.terms.iter().position(|&term| term == rule.term).expect("a term has a place");
        self.table[place] = self.table[place].min(rule.bound);
    }

    /// The place of some rule.
    fn held(&self, random: &mut Random) -> Option<usize> {
        let held: Vec<usize> = self.visible.iter().copied().filter(|&place| self.table[place] != NO_RULE).collect();
        (!held.is_empty()).then(|| random.pick(&held))
    }

    /// The sheet's least bound of a place's term, which is a word: no term has more than 64 bounds added up.
    fn least(&self, place: usize) -> Option<i64> {
        let least = self.least.as_ref()?.least(&self.terms[place])?;
        Some(least as i64)
    }

    /// A least bound or a change may be past a script's limit: the bound is brought to it.
    fn keep_limit(&mut self) {
        let limit = script_limit(self.sheet.hidden);
        let held = self.table.iter_mut().filter(|bound| **bound != NO_RULE);
        held.for_each(|bound| *bound = (*bound).clamp(-limit, limit));
    }
}
