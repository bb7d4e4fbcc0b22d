//! The verdict on two texts: both read, the script held against the sheet, the number given; everything that a verdict
//! needs beside the texts is the call's own. With its reasons, words for the integers are lent to all calls of a batch in
//! turn, as in `tables`.

use crate::papers::Pair;
use crate::times::{take_turns, timed, Batches, Side};
use judge::library::{Marker, Told, EQUAL, LOOSE, TIGHT};
use judge::linked::Linked;
use judge::meaning::MOST_QUANTITIES;
use judge::plain_mark;
use judge::plain_reasons;
use std::hint::black_box;

/// Times the marking of each equal script.
pub fn equal(pairs: &[Pair]) -> Batches {
    scripts(pairs, EQUAL)
}

/// Times the marking of each loose script.
pub fn loose(pairs: &[Pair]) -> Batches {
    scripts(pairs, LOOSE)
}

/// Times the marking of each tight script.
pub fn tight(pairs: &[Pair]) -> Batches {
    scripts(pairs, TIGHT)
}

/// Times the marking of each loose script, with the reasons.
pub fn loose_with_reasons(pairs: &[Pair]) -> Batches {
    reasons(&with(pairs, LOOSE), LOOSE)
}

/// Times the marking of each tight script, with the reasons.
pub fn tight_with_reasons(pairs: &[Pair]) -> Batches {
    reasons(&with(pairs, TIGHT), TIGHT)
}

/// Times the marking of each script that has this verdict.
fn scripts(pairs: &[Pair], verdict: u32) -> Batches {
    mark(&with(pairs, verdict), verdict)
}

/// The texts of each sheet and of its script that has this verdict.
fn with(pairs: &[Pair], verdict: u32) -> Vec<(&[u8], &[u8])> {
    pairs.iter().map(|pair| (&pair.text[..], pair.scripts.with(verdict))).collect()
}

/// Times the marking of these texts, a sheet's and a script's, for which this number is due.
pub fn mark(texts: &[(&[u8], &[u8])], due: u32) -> Batches {
    take_turns(texts.len(), |side| {
        timed(|| {
            texts.iter().all(|&(sheet, script)| {
                let number = match side {
                    Side::Library => Linked.mark(sheet, script),
                    Side::Plain => plain_mark::mark(sheet, script),
                };
                number == due
            })
        })
    })
}

/// The same with the reasons.
fn reasons(texts: &[(&[u8], &[u8])], due: u32) -> Batches {
    let mut values = [0; MOST_QUANTITIES];
    let mut told = Told { paper: 0, value: 0, quantities: 0, rule: [0; 3] };
    take_turns(texts.len(), |side| {
        timed(|| {
            texts.iter().all(|&(sheet, script)| {
                let (values, told) = (black_box(&mut values[..]), black_box(&mut told));
                let number = match side {
                    Side::Library => Linked.mark_texts(sheet, script, values, told),
                    Side::Plain => plain_reasons::mark_texts(sheet, script, values, told),
                };
                number == due
            })
        })
    })
}
