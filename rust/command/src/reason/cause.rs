//! What stands at a place of a line where it should not, with the usual causes.

use super::fault::Fault;

pub const WINDOWS: &str = "CR LF is the line end of Windows; all CR are taken away by  tr -d '\\r' < FILE > NEW";
const OLD_ENDS: &str =
    "lines end with a line feed, byte 10; each CR is turned into one by  tr '\\r' '\\n' < FILE > NEW";
const TAKEN_AWAY: &str = "lines end with a line feed alone; all CR are taken away by  tr -d '\\r' < FILE > NEW";
const ASCII: &str = "use the characters of ASCII alone: the digits 0 to 9, + - : , = and small letters for the keys";

/// The fault of a byte that does not belong where it stands, or of a line that ends there; `due` is what may stand there.
pub fn stray(line: &[u8], at: usize, due: &str) -> Fault {
    let rest = line.get(at..).unwrap_or_default();
    match rest {
        [] => Fault::new(at, 1, format!("the line ends here, where {due} is due")),
        [b'\r', ..] => carriage_return(line, at),
        [b' ' | b'\t', ..] => blank(line, at, due),
        _ if is_comment(rest) => comment(at, rest.len()),
        [byte, ..] if byte.is_ascii() => Fault::new(at, 1, format!("{}, where {due} is due", ascii(*byte))),
        _ => unicode(rest, at, due),
    }
}

/// Carriage returns before a line's end, or one inside of it. Where one stands first it ends no line, and to turn it into a
/// line feed would make an empty line.
fn carriage_return(line: &[u8], at: usize) -> Fault {
    let length = line[at..].iter().take_while(|&&byte| byte == b'\r').count();
    let ends = at + length == line.len();
    match length {
        1 if ends => {
            let what = "a carriage return (CR, byte 13) before the end of the line, which is a line feed alone";
            Fault::new(at, 1, what).with_help(WINDOWS)
        }
        _ if ends => {
            let what = "carriage returns (CR, byte 13) before the end of the line, which is a line feed alone";
            Fault::new(at, length, what).with_help(WINDOWS)
        }
        _ if at == 0 => {
            Fault::new(at, length, "a carriage return (CR, byte 13) at the beginning of a line").with_help(TAKEN_AWAY)
        }
        _ => Fault::new(at, 1, "a carriage return (CR, byte 13) inside of a line").with_help(OLD_ENDS),
    }
}

/// Whether these bytes begin a comment in some language.
pub fn is_comment(bytes: &[u8]) -> bool {
    bytes.starts_with(b"#") || bytes.starts_with(b"//") || bytes.starts_with(b"/*")
}

pub fn comment(at: usize, length: usize) -> Fault {
    Fault::new(at, length, "a comment: a text has none").with_help("keep comments in another file")
}

/// A blank or a tab, and what it is there for where that can be seen.
fn blank(line: &[u8], at: usize, due: &str) -> Fault {
    let name = if line[at] == b'\t' { "a tab" } else { "a blank" };
    let length = line[at..].iter().take_while(|&&byte| byte == b' ' || byte == b'\t').count();
    match &line[at + length..] {
        [] | [b'\r'] => Fault::new(at, length, format!("{name} at the end of the line: no line has blanks or tabs")),
        rest if is_comment(rest) => comment(at + length, rest.len()),
        _ => Fault::new(at, length, format!("{name}, where {due} is due; no line has blanks or tabs")),
    }
}

/// An ASCII byte by its name.
fn ascii(byte: u8) -> String {
    match byte {
        b'A'..=b'Z' | b'a'..=b'z' => format!("the letter {}", char::from(byte)),
        b'+' | b'-' => format!("the sign {}", char::from(byte)),
        b'!'..=b'~' => format!("the character {}", char::from(byte)),
        0 => "a NUL byte".to_string(),
        _ => format!("the control character 0x{byte:02X}"),
    }
}

/// A character outside of ASCII, or a byte that is part of none.
fn unicode(rest: &[u8], at: usize, due: &str) -> Fault {
    let letter = rest.utf8_chunks().next().and_then(|part| part.valid().chars().next());
    let Some(letter) = letter else {
        let what = format!("the byte 0x{:02X}, which is neither ASCII nor UTF-8, where {due} is due", rest[0]);
        return Fault::new(at, 1, what).with_help(ASCII);
    };
    let code = format!("U+{:04X}", u32::from(letter));
    let what = match letter {
        '\u{2010}'..='\u{2015}' | '\u{2212}' | '\u{fe58}' | '\u{fe63}' | '\u{ff0d}' => {
            format!("a Unicode minus or dash ({code}); the sign is -, the hyphen of ASCII (byte 45)")
        }
        '\u{feff}' => format!("a byte order mark ({code}), where {due} is due"),
        '\u{200b}'..='\u{200f}' | '\u{2060}' | '\u{ad}' => {
            format!("an invisible character ({code}), where {due} is due")
        }
        _ if letter.is_whitespace() => format!("a Unicode blank ({code}), where {due} is due"),
        _ if letter.is_numeric() => format!("a digit that is not ASCII ({code}), where {due} is due"),
        _ if letter.is_alphabetic() => format!("a letter that is not ASCII ({code}), where {due} is due"),
        _ => format!("a character that is not ASCII ({code}), where {due} is due"),
    };
    Fault::new(at, letter.len_utf8(), what).with_help(ASCII)
}
