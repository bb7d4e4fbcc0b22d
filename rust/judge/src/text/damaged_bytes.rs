//! Damage to the bytes of a text: one is changed, inserted, deleted or exchanged with the next, all behind one are cut
//! off, or some are added.

use crate::random::Random;

pub struct DamagedBytes {
    /// not empty before a way is gone
    pub text: Vec<u8>,
}

impl DamagedBytes {
    pub const WAYS: [fn(&mut Self, &mut Random); 7] =
        [Self::change, Self::insert, Self::delete, Self::exchange, Self::cut, Self::cut, Self::append];

    /// Half of the time to a byte near the old one: the next digit, the other sign, a letter of the other case.
    fn change(&mut self, random: &mut Random) {
        let at = place(self.text.len(), random);
        let old = self.text[at];
        self.text[at] = match random.below(4) {
            0 => old.wrapping_add(random.pick(&[1, 2, 254, 255])),
            1 => old ^ (1 << random.below(8)),
            _ => byte(random),
        };
    }

    fn insert(&mut self, random: &mut Random) {
        self.text.insert(place(self.text.len() + 1, random), byte(random));
    }

    fn delete(&mut self, random: &mut Random) {
        self.text.remove(place(self.text.len(), random));
    }

    fn exchange(&mut self, random: &mut Random) {
        let length = self.text.len();
        let at = random.below(length);
        self.text.swap(at, (at + 1) % length);
    }

    fn cut(&mut self, random: &mut Random) {
        self.text.truncate(place(self.text.len(), random));
    }

    fn append(&mut self, random: &mut Random) {
        let one = [byte(random)];
        let added = random.pick(&[&one[..], b"\n", b"\r\n", b"\0", b" ", b"rule=+1:0\n", b"rule=+1:0"]);
        self.text.extend_from_slice(added);
    }
}

/// A place below `end`, at times the first or the last.
fn place(end: usize, random: &mut Random) -> usize {
    match random.chance(20) {
        true => random.edge(end),
        false => random.below(end),
    }
}

/// Mostly one that texts are made of.
fn byte(random: &mut Random) -> u8 {
    let any = random.word() as u8;
    random.pick(&[b'0', b'1', b'9', b'+', b'-', b',', b':', b'=', b'\n', b'\r', b' ', b'r', any, any])
}
