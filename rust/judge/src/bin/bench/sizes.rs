//! How large the papers are, and how that grows with n.

use crate::papers::{Pair, Papers, DENSITIES, QUANTITIES};
use judge::library::EQUAL;

/// One of the texts of a pair.
type Text = fn(&Pair) -> &[u8];

const TEXTS: [(&str, Text); 2] =
    [("Bytes of the sheet", |pair| &pair.text), ("Bytes of the script", |pair| pair.scripts.with(EQUAL))];

/// Lines of a text before its rules.
const HEADER: usize = 3;

/// Prints a row for each n.
pub fn print(papers: &Papers) {
    println!("\n| Papers | sheets | sparse sheet | its script | dense sheet | its script |\n|---|---|---|---|---|---|");
    for (n, row) in QUANTITIES.iter().zip(papers) {
        let sizes = row.each_ref().map(|pairs| TEXTS.map(|(_, text)| size(pairs, text)).join(" | "));
        println!("| n = {n} | {} | {} |", row[0].len(), sizes.join(" | "));
    }
}

/// Prints for each density the factors of both texts from each n to the next.
pub fn print_growth(papers: &Papers) {
    for (name, text) in TEXTS {
        for (at, (density, _)) in DENSITIES.iter().enumerate() {
            let bytes = papers.each_ref().map(|row| mean(&row[at], |pair| text(pair).len()));
            let factors: String = bytes.windows(2).map(|step| format!(" {:.1} |", step[1] / step[0])).collect();
            println!("| {name} | {density} |{factors}");
        }
    }
}

/// The rules and the bytes of a text.
fn size(pairs: &[Pair], text: Text) -> String {
    let lines = |pair: &Pair| text(pair).iter().filter(|&&byte| byte == b'\n').count();
    let rules = mean(pairs, |pair| lines(pair) - HEADER);
    let bytes = mean(pairs, |pair| text(pair).len());
    format!("{rules:.0} rules, {bytes:.0} bytes")
}

/// The mean of a number over these papers.
fn mean(pairs: &[Pair], number: impl Fn(&Pair) -> usize) -> f64 {
    pairs.iter().map(number).sum::<usize>() as f64 / pairs.len() as f64
}
