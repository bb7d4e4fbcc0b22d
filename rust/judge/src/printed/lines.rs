//! Printed lines held against those that are due, each with its end.

/// Is this what is printed, to the last byte?
pub fn same(printed: &[u8], due: impl AsRef<[u8]>) -> Result<(), String> {
    let (found, due) = (ended(printed), ended(due.as_ref()));
    match (0..found.len().max(due.len())).find(|&at| found.get(at) != due.get(at)) {
        Some(at) => Err(format!("line {}: {}, due {}", at + 1, shown(found.get(at)), shown(due.get(at)))),
        None => Ok(()),
    }
}

/// The integers that can be read off the line with this number. Whatever else is there is passed over: that it may not be
/// there is seen when they are spelled again.
pub fn integers(printed: &[u8], number: usize) -> Vec<i64> {
    let line = ended(printed).get(number - 1).copied().unwrap_or(b"");
    let line = String::from_utf8_lossy(line);
    let (_, value) = line.trim_end().split_once('=').unwrap_or_default();
    value.split(',').filter_map(|integer| integer.parse().ok()).collect()
}

/// A line that spells these integers.
pub fn spelled(integers: &[i64]) -> String {
    let joined: Vec<String> = integers.iter().map(i64::to_string).collect();
    format!("values={}\n", joined.join(","))
}

fn ended(text: &[u8]) -> Vec<&[u8]> {
    text.split_inclusive(|&byte| byte == b'\n').collect()
}

fn shown(line: Option<&&[u8]>) -> String {
    line.map_or("nothing".into(), |line| format!("'{}'", line.escape_ascii()))
}
