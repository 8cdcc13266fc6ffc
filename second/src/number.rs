//! Document 01, 'Numbers': expressions, scales, rounding.

use crate::refusal::{Work, BAD_NUMBER, NUMBER_LIMIT, PARENTHESES_LIMIT};

/// "A cell is 24 units, a row 40."
pub const CELL: i64 = 24;
pub const ROW: i64 = 40;

/// "DefaultScale scale: m for ll in ti po; v for sp pl wh; u for nr, ce and if."
#[derive(Clone, Copy, Debug, PartialEq, Eq)]
pub enum DefaultScale {
    Across,
    Down,
    Units,
}

impl DefaultScale {
    fn letter(self) -> u8 {
        match self {
            DefaultScale::Across => b'm',
            DefaultScale::Down => b'v',
            DefaultScale::Units => b'u',
        }
    }
}

/// "Literals are whole digits with scale i 240, c 240×50/127, P 40, m and n 24, p 240/72, u 1, v 40":
/// each as a fraction.
fn scale(letter: u8) -> Option<(u64, u64)> {
    match letter {
        b'i' => Some((240, 1)),
        b'c' => Some((240 * 50, 127)),
        b'P' => Some((40, 1)),
        b'm' | b'n' => Some((24, 1)),
        b'p' => Some((240, 72)),
        b'u' => Some((1, 1)),
        b'v' => Some((40, 1)),
        _ => None,
    }
}

/// "literal, step or result outside ±1,000,000,000"
pub fn within_limit(value: i64) -> Work<i64> {
    if (-NUMBER_LIMIT..=NUMBER_LIMIT).contains(&value) {
        Ok(value)
    } else {
        Err(BAD_NUMBER)
    }
}

/// "Results of the first two groups round to the nearest cell or row, halves away from zero (H)."
pub fn round(units: i64, size: i64) -> i64 {
    let whole = (units.abs() * 2 + size) / (size * 2);
    if units < 0 {
        -whole
    } else {
        whole
    }
}

/// The value of a whole argument. Anything behind the expression makes it malformed.
pub fn evaluate(argument: &[u8], default: DefaultScale) -> Work<i64> {
    let mut reader = Reader { bytes: argument, at: 0, default };
    let value = reader.expression(0)?;
    if reader.at == argument.len() {
        Ok(value)
    } else {
        Err(BAD_NUMBER)
    }
}

/// "a leading sign marks a change to the old value by the whole expression"
pub fn is_change(argument: &[u8]) -> bool {
    matches!(argument.first(), Some(b'+' | b'-'))
}

#[derive(Clone, Copy)]
enum Operator {
    Add,
    Subtract,
    Multiply,
    Divide,
    Remainder,
    Less,
    Greater,
    LessOrEqual,
    GreaterOrEqual,
    Equal,
    And,
    Or,
}

struct Reader<'a> {
    bytes: &'a [u8],
    at: usize,
    default: DefaultScale,
}

impl Reader<'_> {
    fn peek(&self) -> Option<u8> {
        self.bytes.get(self.at).copied()
    }

    /// "An expression is terms joined by operators" and "run[s] left to right with no precedence".
    fn expression(&mut self, depth: usize) -> Work<i64> {
        let mut value = self.term(depth)?;
        while let Some(operator) = self.operator() {
            let right = self.term(depth)?;
            value = apply(operator, value, right)?;
        }
        Ok(value)
    }

    /// "a term is a literal, a parenthesised expression, or one sign and a term"
    fn term(&mut self, depth: usize) -> Work<i64> {
        match self.peek() {
            Some(b'+') => {
                self.at += 1;
                self.term(depth)
            }
            Some(b'-') => {
                self.at += 1;
                Ok(-self.term(depth)?)
            }
            Some(b'(') => {
                // "parentheses past 8 deep"
                if depth == PARENTHESES_LIMIT {
                    return Err(BAD_NUMBER);
                }
                self.at += 1;
                let value = self.expression(depth + 1)?;
                if self.peek() != Some(b')') {
                    return Err(BAD_NUMBER);
                }
                self.at += 1;
                Ok(value)
            }
            Some(b'0'..=b'9') => self.literal(),
            _ => Err(BAD_NUMBER),
        }
    }

    /// Digits and a scale, "cut down to whole units".
    fn literal(&mut self) -> Work<i64> {
        let mut count: u64 = 0;
        while let Some(digit @ b'0'..=b'9') = self.peek() {
            // Past the limit the exact size no longer matters: every scale is at least 1.
            count = (count * 10 + u64::from(digit - b'0')).min(10 * NUMBER_LIMIT as u64);
            self.at += 1;
        }
        let own = self.peek().and_then(scale);
        if own.is_some() {
            self.at += 1;
        }
        let (times, over) = own.or(scale(self.default.letter())).expect("default scale");
        within_limit((count * times / over) as i64)
    }

    /// "+ - * / % < > <= >= = == & :", two-byte operators first.
    fn operator(&mut self) -> Option<Operator> {
        let followed_by_equal = self.bytes.get(self.at + 1) == Some(&b'=');
        let (operator, length) = match self.peek()? {
            b'+' => (Operator::Add, 1),
            b'-' => (Operator::Subtract, 1),
            b'*' => (Operator::Multiply, 1),
            b'/' => (Operator::Divide, 1),
            b'%' => (Operator::Remainder, 1),
            b'<' if followed_by_equal => (Operator::LessOrEqual, 2),
            b'>' if followed_by_equal => (Operator::GreaterOrEqual, 2),
            b'=' if followed_by_equal => (Operator::Equal, 2),
            b'<' => (Operator::Less, 1),
            b'>' => (Operator::Greater, 1),
            b'=' => (Operator::Equal, 1),
            b'&' => (Operator::And, 1),
            b':' => (Operator::Or, 1),
            _ => return None,
        };
        self.at += length;
        Some(operator)
    }
}

/// One operation. "Comparisons and logic give 1 or 0; true is above 0." "Division cuts toward zero and
/// % has the dividend's sign (H)", which is what Rust's operators do.
fn apply(operator: Operator, left: i64, right: i64) -> Work<i64> {
    let value = match operator {
        Operator::Add => left + right,
        Operator::Subtract => left - right,
        Operator::Multiply => left * right,
        Operator::Divide | Operator::Remainder if right == 0 => return Err(BAD_NUMBER),
        Operator::Divide => left / right,
        Operator::Remainder => left % right,
        Operator::Less => i64::from(left < right),
        Operator::Greater => i64::from(left > right),
        Operator::LessOrEqual => i64::from(left <= right),
        Operator::GreaterOrEqual => i64::from(left >= right),
        Operator::Equal => i64::from(left == right),
        Operator::And => i64::from(left > 0 && right > 0),
        Operator::Or => i64::from(left > 0 || right > 0),
    };
    within_limit(value)
}

#[cfg(test)]
mod tests {
    use super::*;

    fn units(argument: &str) -> Work<i64> {
        evaluate(argument.as_bytes(), DefaultScale::Units)
    }

    #[test]
    fn the_worked_numbers_of_document_01() {
        assert_eq!(units("1+2*3"), Ok(9));
        assert_eq!(units("1+(2*3)"), Ok(7));
        assert_eq!(units("-7/2"), Ok(-3));
        assert_eq!(units("-7%2"), Ok(-1));
        assert_eq!(units("1c"), Ok(94));
        assert_eq!(units("3p"), Ok(10));
        assert_eq!(round(36, CELL), 2);
        assert_eq!(round(-36, CELL), -2);
        assert_eq!(units("5/0"), Err(BAD_NUMBER));
    }

    #[test]
    fn halves_round_away_from_zero_and_only_halves() {
        assert_eq!(round(35, CELL), 1);
        assert_eq!(round(11, CELL), 0);
        assert_eq!(round(12, CELL), 1);
        assert_eq!(round(-11, CELL), 0);
        assert_eq!(round(-12, CELL), -1);
        assert_eq!(round(19, ROW), 0);
        assert_eq!(round(20, ROW), 1);
        assert_eq!(round(-20, ROW), -1);
    }

    #[test]
    fn sizes_are_judged_at_a_thousand_million() {
        assert_eq!(units("1000000000"), Ok(1_000_000_000));
        assert_eq!(units("1000000001"), Err(BAD_NUMBER));
        assert_eq!(units("-1000000000"), Ok(-1_000_000_000));
        assert_eq!(units("-1000000000-1"), Err(BAD_NUMBER));
        assert_eq!(units("99999999999999999999999999999999"), Err(BAD_NUMBER));
        assert_eq!(units("300000000p"), Ok(1_000_000_000));
        assert_eq!(units("300000001p"), Err(BAD_NUMBER));
    }

    #[test]
    fn parentheses_go_eight_deep() {
        assert_eq!(units("((((((((1))))))))"), Ok(1));
        assert_eq!(units("(((((((((1)))))))))"), Err(BAD_NUMBER));
    }

    #[test]
    fn malformed_numbers_are_refused() {
        for bad in ["", "1+", "()", "(1)u", "1===2", "=<1", "1.5", " 1", "1 ", "x", "(1", "1)", "+", "1=<2"] {
            assert_eq!(units(bad), Err(BAD_NUMBER), "{bad}");
        }
    }
}
