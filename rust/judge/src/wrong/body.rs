//! Which function's body a place of a source file lies in, told by the layout that `rt fmt` gives: a function's header, the
//! line that opens its body and the line that closes it are indented alike, and all between them is indented deeper.

/// Does the place lie in the body of a function of this name?
pub fn is_in_body(text: &str, at: usize, name: &str) -> bool {
    let start = text[..at].rfind('\n').map_or(0, |end| end + 1);
    let above: Vec<&str> = text[..start].lines().collect();
    let Some(header) = above.iter().rposition(|line| function_of(line).is_some()) else {
        return false;
    };
    let indent = indentation(above[header]);
    let outer: Vec<&&str> = above[header..].iter().filter(|line| indentation(line) == indent).collect();
    function_of(above[header]) == Some(name)
        && outer.iter().any(|line| line.ends_with('{'))
        && !outer.iter().any(|line| line.trim_start() == "}")
        && function_of(text[start..].lines().next().unwrap_or_default()).is_none()
}

/// The name of the function whose header begins on this line.
fn function_of(line: &str) -> Option<&str> {
    let mut words = line.trim_start();
    for before in ["pub ", "pub(crate) ", "extern \"C\" "] {
        words = words.strip_prefix(before).unwrap_or(words);
    }
    let (name, _) = words.strip_prefix("fn ")?.split_once(['(', '<'])?;
    Some(name)
}

fn indentation(line: &str) -> usize {
    line.len() - line.trim_start().len()
}
