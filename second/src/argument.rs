//! Document 01, 'Lines and escapes': the arguments of a control line, as expanded.

use crate::state::Arguments;

/// "past nine are dropped"
const ARGUMENT_LIMIT: usize = 9;

/// The place behind the spaces at `at`.
pub fn skip_spaces(line: &[u8], at: usize) -> usize {
    at + line[at..].iter().take_while(|&&byte| byte == b' ').count()
}

/// The place of the next space, or the line's end.
pub fn next_space(line: &[u8], at: usize) -> usize {
    at + line[at..].iter().take_while(|&&byte| byte != b' ').count()
}

/// The argument that starts at or behind `at`, and the place behind it. "one that starts with a double quote runs to
/// the next lone one or the line's end, "" inside being one quote".
pub fn argument(line: &[u8], at: usize) -> Option<(Vec<u8>, usize)> {
    let start = skip_spaces(line, at);
    if start == line.len() {
        return None;
    }
    if line[start] != b'"' {
        let end = next_space(line, start);
        return Some((line[start..end].to_vec(), end));
    }
    let (mut bytes, mut at) = (Vec::new(), start + 1);
    while at < line.len() {
        if line[at] == b'"' {
            if line.get(at + 1) != Some(&b'"') {
                return Some((bytes, at + 1));
            }
            at += 1;
        }
        bytes.push(line[at]);
        at += 1;
    }
    Some((bytes, at))
}

/// "Arguments part at spaces", behind the name.
pub fn arguments(line: &[u8]) -> Arguments {
    let (mut found, mut at) = (Vec::new(), next_space(line, 0));
    while found.len() < ARGUMENT_LIMIT {
        let Some((bytes, behind)) = argument(line, at) else { break };
        found.push(bytes);
        at = behind;
    }
    found
}

#[cfg(test)]
mod tests {
    use super::*;

    fn parted(line: &str) -> Vec<String> {
        arguments(line.as_bytes()).into_iter().map(|bytes| String::from_utf8(bytes).unwrap()).collect()
    }

    #[test]
    fn arguments_part_at_spaces_and_quotes() {
        assert_eq!(parted(".m a  b"), ["a", "b"]);
        assert_eq!(parted(".m \"a b\" c"), ["a b", "c"]);
        assert_eq!(parted(".m \"a\"b c"), ["a", "b", "c"]);
        assert_eq!(parted(".m \"a\"\"b\""), ["a\"b"]);
        assert_eq!(parted(".m \"\"\""), ["\""]);
        assert_eq!(parted(".m \"\" x"), ["", "x"]);
        assert_eq!(parted(".m a\"b \"c d"), ["a\"b", "c d"]);
        assert_eq!(parted(".m"), [""; 0]);
        assert_eq!(parted(".m   "), [""; 0]);
    }

    #[test]
    fn past_nine_are_dropped() {
        assert_eq!(parted(".m 1 2 3 4 5 6 7 8 9 10 11").len(), 9);
    }
}
