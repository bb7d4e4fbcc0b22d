//! Texts that were not saved as ASCII or UTF-8: a byte order mark, UTF-16 and UTF-32.

use super::fault::Fault;

/// How many bytes are looked at for what every character has in an encoding.
const LOOKED_AT: usize = 64;

/// A character of ASCII in an encoding: its length, the place of its byte that is not NUL, the encoding's name and what
/// shows it.
type Wide = (usize, usize, &'static str, &'static str);

const WIDE: [Wide; 4] = [
    (4, 0, "UTF-32LE", "three NUL bytes after each character, as in UTF-32"),
    (4, 3, "UTF-32BE", "three NUL bytes before each character, as in UTF-32"),
    (2, 0, "UTF-16LE", "a NUL byte after each character, as in UTF-16"),
    (2, 1, "UTF-16BE", "a NUL byte before each character, as in UTF-16"),
];

/// What the beginning of the text shows to be wrong with all of it.
pub fn fault(text: &[u8]) -> Option<Fault> {
    let (length, what, help) = match text {
        [0xff, 0xfe, 0, 0, ..] | [0, 0, 0xfe, 0xff, ..] => (4, "the byte order mark of UTF-32", saved_as("UTF-32")),
        [0xff, 0xfe, ..] | [0xfe, 0xff, ..] => (2, "the byte order mark of UTF-16", saved_as("UTF-16")),
        [0xef, 0xbb, 0xbf, ..] => (3, "a byte order mark (the bytes EF BB BF), which some editors put first", marked()),
        _ => {
            let (length, _, name, what) = wide(text)?;
            (length, what, saved_as(name))
        }
    };
    Some(Fault::new(0, length, what).with_help(help))
}

/// The fault of a line that is in another encoding than those before it, as where something was added to the file.
pub fn changed(line: &[u8]) -> Option<Fault> {
    let (length, _, _, what) = wide(line)?;
    Some(Fault::new(0, length, what).with_help("save all of it as ASCII: the lines before are, and this one is not"))
}

fn marked() -> String {
    "save it as UTF-8 without a byte order mark, or take the mark away by  tail -c +4 FILE > NEW".to_string()
}

fn saved_as(encoding: &str) -> String {
    format!("save it as ASCII, or convert it by  iconv -f {encoding} -t ASCII FILE > NEW")
}

/// The encoding in which most of the first characters are of ASCII, where those have NUL bytes.
fn wide(text: &[u8]) -> Option<Wide> {
    let first = &text[..text.len().min(LOOKED_AT)];
    WIDE.into_iter().find(|&(length, place, ..)| {
        let fits = |unit: &&[u8]| unit.iter().enumerate().all(|(at, &byte)| (byte != 0) == (at == place));
        let (all, fitting) = (first.len() / length, first.chunks_exact(length).filter(fits).count());
        all >= 2 && 4 * fitting >= 3 * all
    })
}
