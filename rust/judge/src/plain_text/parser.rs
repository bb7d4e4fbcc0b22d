//! One pass over a text, byte by byte. A line is read to its end before its numbers are compared with their limits, so
//! that 2 comes before 3, 3 before 4 and, on a bank sheet, 4 before 9.

use super::place;
use crate::library::{cancelling, malformed, not_canonical, past_limit, Reply, SIZE};
use crate::meaning::{script_limit, LIMIT, MOST_BYTES, MOST_QUANTITIES, MOST_RULES};

pub struct Parser<'a> {
    text: &'a [u8],
    at: usize,
    line: usize,
}

pub struct Parsed {
    pub n: usize,
    pub hidden: u32,
    /// place and bound of each rule
    pub rules: Vec<(usize, i64)>,
}

impl Parsed {
    /// Puts the rules into a table, which keeps the smaller bound of each place.
    pub fn put(&self, table: &mut [i64]) {
        for &(place, bound) in &self.rules {
            table[place] = table[place].min(bound);
        }
    }
}

impl Parser<'_> {
    pub fn sheet(text: &[u8]) -> Result<Parsed, Reply> {
        Parser::paper::<false>(text, |_| LIMIT)
    }

    /// A sheet in bank form.
    pub fn bank_sheet(text: &[u8]) -> Result<Parsed, Reply> {
        Parser::paper::<true>(text, |_| LIMIT)
    }

    /// Its own hidden list decides how large a bound may be.
    pub fn script(text: &[u8]) -> Result<Parsed, Reply> {
        Parser::paper::<false>(text, script_limit)
    }

    /// Whether it has to be in bank form is known when this is compiled, so that other papers are read without a thought of it.
    fn paper<const BANK: bool>(text: &[u8], most: impl Fn(u32) -> i64) -> Result<Parsed, Reply> {
        if text.len() > MOST_BYTES {
            return Err(SIZE);
        }
        let mut parser = Parser { text, at: 0, line: 1 };
        let n = parser.count(b"quantities=", 1, MOST_QUANTITIES)?;
        let hidden = parser.hidden(n)?;
        let count = parser.count(b"rules=", 0, MOST_RULES)?;
        let most = most(hidden);
        let mut rules = Vec::with_capacity(count);
        // the first place that the next rule may have
        let mut least = 0;
        for _ in 0..count {
            let rule = parser.rule::<BANK>(n, most, least)?;
            least = rule.0 + 1;
            rules.push(rule);
        }
        if parser.at < text.len() {
            return Err(malformed(parser.line));
        }
        Ok(Parsed { n, hidden, rules })
    }

    fn count(&mut self, key: &[u8], least: usize, most: usize) -> Result<usize, Reply> {
        self.expect(key)?;
        let count = self.number()?;
        self.expect(b"\n")?;
        if count < least as u64 || count > most as u64 {
            return Err(past_limit(self.line));
        }
        self.line += 1;
        Ok(count as usize)
    }

    fn hidden(&mut self, n: usize) -> Result<u32, Reply> {
        self.expect(b"hidden=")?;
        let mut set = 0;
        let mut past = false;
        let mut last: &[u8] = b"";
        while self.peek() != Some(b'\n') {
            if !last.is_empty() {
                self.expect(b",")?;
            }
            let start = self.at;
            let q = self.number()?;
            let numeral = &self.text[start..self.at];
            // as numerals, for a number may be too long for a word
            if (numeral.len(), numeral) <= (last.len(), last) {
                return Err(malformed(self.line));
            }
            last = numeral;
            if q == 0 || q > n as u64 {
                past = true;
            } else {
                set |= 1 << (q - 1);
            }
        }
        self.expect(b"\n")?;
        if past {
            return Err(past_limit(self.line));
        }
        self.line += 1;
        Ok(set)
    }

    /// The place and the bound of a rule, a doubled term halved; in bank form none is doubled, the lower quantity comes first,
    /// and the place is `least` or later. It stands in the loop of either paper, or reading would be slower by a twentieth.
    #[inline(always)]
    fn rule<const BANK: bool>(&mut self, n: usize, most: i64, least: usize) -> Result<(usize, i64), Reply> {
        self.expect(b"rule=")?;
        let first = self.signed()?;
        let second = if self.peek() == Some(b':') { None } else { Some(self.signed()?) };
        self.expect(b":")?;
        let bound = self.bound()?;
        self.expect(b"\n")?;
        let outside = |(_, q): (bool, u64)| q == 0 || q > n as u64;
        if outside(first) || second.is_some_and(outside) || !(-most..=most).contains(&bound) {
            return Err(past_limit(self.line));
        }
        let literal = |(minus, q): (bool, u64)| 2 * (q as usize - 1) + usize::from(minus);
        let rule = match (literal(first), second.map(literal)) {
            (x, None) => (place::of_one(x), bound),
            (x, Some(y)) if x ^ y == 1 => return Err(cancelling(self.line)),
            (x, Some(y)) if BANK && x >= y => return Err(not_canonical(self.line)),
            (x, Some(y)) if x == y => (place::of_one(x), bound.div_euclid(2)),
            (x, Some(y)) => (place::of_two(x, y), bound),
        };
        if BANK && rule.0 < least {
            return Err(not_canonical(self.line));
        }
        self.line += 1;
        Ok(rule)
    }

    /// A sign and a quantity number.
    fn signed(&mut self) -> Result<(bool, u64), Reply> {
        let minus = match self.peek() {
            Some(b'+') => false,
            Some(b'-') => true,
            _ => return Err(malformed(self.line)),
        };
        self.at += 1;
        Ok((minus, self.number()?))
    }

    /// A number too long for a word becomes one past the limit.
    fn bound(&mut self) -> Result<i64, Reply> {
        let minus = self.peek() == Some(b'-');
        self.at += usize::from(minus);
        let magnitude = i64::try_from(self.number()?).unwrap_or(i64::MAX);
        match minus {
            true if magnitude == 0 => Err(malformed(self.line)),
            true => Ok(-magnitude),
            false => Ok(magnitude),
        }
    }

    /// Digits without leading zeros. Up to 19 of them fit a word; a longer number becomes the largest word, which is
    /// past every limit.
    fn number(&mut self) -> Result<u64, Reply> {
        let start = self.at;
        let mut value: u64 = 0;
        while let Some(digit @ b'0'..=b'9') = self.peek() {
            value = value.wrapping_mul(10).wrapping_add(u64::from(digit - b'0'));
            self.at += 1;
        }
        match self.at - start {
            0 => Err(malformed(self.line)),
            1 => Ok(value),
            _ if self.text[start] == b'0' => Err(malformed(self.line)),
            2..=19 => Ok(value),
            _ => Ok(u64::MAX),
        }
    }

    fn expect(&mut self, bytes: &[u8]) -> Result<(), Reply> {
        if !self.text[self.at..].starts_with(bytes) {
            return Err(malformed(self.line));
        }
        self.at += bytes.len();
        Ok(())
    }

    fn peek(&self) -> Option<u8> {
        self.text.get(self.at).copied()
    }
}
