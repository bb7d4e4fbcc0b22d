//! A text that ends earlier: its first lines, with the number of rules that is then right.

/// Lines before the rules.
pub const HEADER: usize = 3;

/// The first so many rules of a text and the lines before them, as far as they are there.
pub fn cut(text: &[u8], rules: usize) -> Vec<u8> {
    let count = format!("rules={rules}\n").into_bytes();
    let lines = text.split_inclusive(|&byte| byte == b'\n').take(HEADER + rules).enumerate();
    lines.flat_map(|(at, line)| if at + 1 == HEADER { &count[..] } else { line }).copied().collect()
}
