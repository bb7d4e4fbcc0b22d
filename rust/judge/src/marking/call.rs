//! Calls on two texts in lent memory, and that they change none of the texts.

use crate::calls::kept;
use crate::due::FARTHEST;
use crate::lent::{Around, Lent};
use crate::library::{Marker, Told};
use crate::random::Random;

/// Both texts stand in one buffer, as a host may hold them. Between them is nothing, a line's end, which would end the
/// sheet's last line if it were looked at, or any byte.
pub struct MarkCall {
    texts: Lent<u8>,
    sheet: usize,
    script: usize,
}

impl MarkCall {
    pub fn new(sheet: &[u8], script: &[u8], random: &mut Random) -> MarkCall {
        let any = [random.word() as u8];
        let between = random.pick(&[&b""[..], b"\n", &any]);
        let texts = Lent::text(&[sheet, between, script].concat(), random);
        MarkCall { texts, sheet: sheet.len(), script: script.len() }
    }

    pub fn run(&self, library: &dyn Marker) -> u32 {
        let (sheet, script) = self.texts();
        library.mark(sheet, script)
    }

    /// Has no call changed a byte?
    pub fn memory(&self) -> Result<(), String> {
        kept("texts", &self.texts, 0)
    }

    fn texts(&self) -> (&[u8], &[u8]) {
        let texts = self.texts.left();
        (&texts[..self.sheet], &texts[texts.len() - self.script..])
    }
}

/// The call with reasons on the same texts: words for the integers, and what is told beside the number.
pub struct ReasonsCall {
    pub values: Lent,
    pub told: Around<Told>,
    /// what was there before the call
    pub before: Told,
}

impl ReasonsCall {
    /// So many words for the integers. They and what is told may hold anything before; half of the time no word is an
    /// integer of an assignment, so that one which is not written is seen.
    pub fn new(length: usize, random: &mut Random) -> ReasonsCall {
        let mut words = random.words(length);
        if random.chance(50) {
            words.iter_mut().filter(|word| (-FARTHEST..=FARTHEST).contains(*word)).for_each(|word| *word ^= i64::MIN);
        }
        let rule = [(); 3].map(|_| random.word() as i64);
        let (paper, value, quantities) = (random.word() as u32, random.word() as usize, random.word() as usize);
        let before = Told { paper, value, quantities, rule };
        ReasonsCall { values: Lent::new(&words, random), told: Around::new(before, random), before }
    }

    pub fn run(&mut self, library: &dyn Marker, texts: &MarkCall) -> u32 {
        let (sheet, script) = texts.texts();
        library.mark_texts(sheet, script, self.values.slice(), &mut self.told.within)
    }
    /// Has the call changed nothing but the first words for the integers, so many, and what is told?
    pub fn memory(&self, free: usize) -> Result<(), String> {
        kept("values", &self.values, free)?;
        match self.told.kept() {
            true => Ok(()),
            false => Err("a word changed beside what is told".into()),
        }
    }
}
