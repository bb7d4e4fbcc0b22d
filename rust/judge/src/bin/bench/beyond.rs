//! Inputs that no sheet of the grid comes near: the longest acceptable text, the longest that is written, and the
//! shortest texts, by which it is seen what a verdict takes before it reads.

use crate::times::{Batches, Times, ROUNDS};
use crate::{marks, texts};
use judge::library::malformed;
use judge::meaning::{size, MOST_QUANTITIES, MOST_RULES};
use judge::sheets::Sheet;
use judge::text::examples::longest_sheet;

/// How many calls a batch of the shortest has.
const MANY: usize = 256;

/// Times each and prints a row of it.
pub fn print() {
    println!("\n| At the limits | bytes | times |\n|---|---|---|");
    let text = longest_sheet(MOST_RULES).text();
    println!("| Reading the longest acceptable sheet | {} | {} |", text.len(), times(|| texts::read(&[&text])));
    let sheet = Sheet { n: MOST_QUANTITIES, hidden: u32::MAX, table: vec![i64::MIN; size(MOST_QUANTITIES)] };
    let length = sheet.to_string().len();
    println!("| Writing 2n² bounds of −2⁶³, n = 32 | {length} | {} |", times(|| texts::write(&[(&sheet, length)])));
    let refused = times(|| marks::mark(&[(&b""[..], &b""[..]); MANY], malformed(1).number));
    println!("| Refusing to mark empty texts | 0 | {refused} |");
}

/// The medians over all rounds.
fn times(batches: impl Fn() -> Batches) -> Times {
    Batches::medians(&[(); ROUNDS].map(|_| batches()))
}
