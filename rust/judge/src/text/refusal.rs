//! A refusal that is due, with its kind. Kinds are finer than numbers: a run fails if it has not met them all.

use crate::library::Reply;

#[derive(PartialEq, Debug)]
pub struct Refusal {
    pub reply: Reply,
    pub kind: String,
}

impl Refusal {
    pub fn new(kind: &str, reply: Reply) -> Refusal {
        Refusal { reply, kind: kind.into() }
    }

    /// The first of the refusals for which there is reason, if there is any. The kind tells the others too, as in `rule
    /// 2+3`.
    pub fn first(place: &str, reasons: impl Iterator<Item = Reply>) -> Option<Refusal> {
        let reasons: Vec<Reply> = reasons.collect();
        let numbers: Vec<String> = reasons.iter().map(|reply| reply.number.to_string()).collect();
        let reply = *reasons.first()?;
        Some(Refusal { reply, kind: format!("{place} {}", numbers.join("+")) })
    }

    /// Is there also reason for a refusal with this number?
    pub fn hides(&self, number: u32) -> bool {
        number != self.reply.number && self.kind.split([' ', '+']).any(|part| part == number.to_string())
    }
}
