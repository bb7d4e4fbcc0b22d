//! What a text is taken for: the right reader then reads another text.

use super::{Trap, Wrong};
use judge::meaning::MOST_BYTES;

impl Wrong {
    pub fn taken(&self, text: &[u8]) -> Vec<u8> {
        match self.trap {
            Trap::MostBytes(most) if text.len() <= most => text[..text.len().min(MOST_BYTES)].to_vec(),
            // a text that is too long is not to become shorter by another mistake
            _ if text.len() > MOST_BYTES => text.to_vec(),
            Trap::Takes(from, to) => replaced(text, from.as_bytes(), to.as_bytes()),
            Trap::LeadingZeros => numerals(text, without_zeros),
            Trap::Wraps(bits) => numerals(text, |numeral| wrapped(numeral, bits)),
            Trap::EndsLastLine if !text.ends_with(b"\n") => [text, b"\n"].concat(),
            Trap::SortsList => on_list(text, sorted),
            Trap::CapsList => on_list(text, |list| numerals(list, capped)),
            _ => text.to_vec(),
        }
    }
}

pub fn replaced(text: &[u8], from: &[u8], to: &[u8]) -> Vec<u8> {
    let mut taken = Vec::new();
    let mut rest = text;
    while let Some(&byte) = rest.first() {
        match rest.strip_prefix(from) {
            Some(behind) => {
                taken.extend_from_slice(to);
                rest = behind;
            }
            None => {
                taken.push(byte);
                rest = &rest[1..];
            }
        }
    }
    taken
}

/// Each run of digits changed in this way.
fn numerals(text: &[u8], change: impl Fn(&[u8]) -> Vec<u8>) -> Vec<u8> {
    let runs = text.chunk_by(|a, b| a.is_ascii_digit() == b.is_ascii_digit());
    runs.flat_map(|run| if run[0].is_ascii_digit() { change(run) } else { run.to_vec() }).collect()
}

fn without_zeros(numeral: &[u8]) -> Vec<u8> {
    let zeros = numeral.iter().take_while(|&&digit| digit == b'0').count();
    numeral[zeros.min(numeral.len() - 1)..].to_vec()
}

/// Numerals with leading zeros are left, for this is not the mistake.
fn wrapped(numeral: &[u8], bits: u32) -> Vec<u8> {
    let value = std::str::from_utf8(numeral).ok().and_then(|digits| digits.parse::<u128>().ok());
    match value {
        Some(value) if value >> bits > 0 && numeral[0] != b'0' => (value % (1 << bits)).to_string().into_bytes(),
        _ => numeral.to_vec(),
    }
}

fn capped(numeral: &[u8]) -> Vec<u8> {
    let most = u64::MAX.to_string().into_bytes();
    match (numeral.len(), numeral) > (most.len(), &most[..]) && numeral[0] != b'0' {
        true => most,
        false => numeral.to_vec(),
    }
}

/// The value of the second line changed in this way, if it is there.
fn on_list(text: &[u8], change: impl Fn(&[u8]) -> Vec<u8>) -> Vec<u8> {
    let mut lines: Vec<Vec<u8>> = text.split(|&byte| byte == b'\n').map(<[u8]>::to_vec).collect();
    if let Some(list) = lines.get(1).and_then(|line| line.strip_prefix(b"hidden=")) {
        lines[1] = [b"hidden=", &change(list)[..]].concat();
    }
    lines.join(&b'\n')
}

fn sorted(list: &[u8]) -> Vec<u8> {
    let mut numerals: Vec<&[u8]> = list.split(|&byte| byte == b',').collect();
    numerals.sort_by_key(|numeral| (numeral.len(), *numeral));
    numerals.dedup();
    numerals.join(&b',')
}
