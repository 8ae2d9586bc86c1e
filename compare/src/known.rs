//! What harfrust has of the lines that this product prints. What document 02 added is left out: a whole line, or the fields behind the known ones.

/// How many fields of a line harfrust has: of `sum` (N1) none; no line of document 01 has more than six.
fn known(line: &str) -> usize {
    if line.starts_with("sum ") {
        0
    } else {
        6
    }
}

/// The lines as harfrust has them.
pub fn theirs(text: &str) -> String {
    let mut out = String::new();
    for line in text.split_inclusive('\n') {
        let (fields, kept): (Vec<&str>, usize) = (line.split(' ').collect(), known(line));
        if fields.len() <= kept {
            out.push_str(line);
        } else if kept > 0 {
            out.push_str(&fields[..kept].join(" "));
            out.push('\n');
        }
    }
    out
}
