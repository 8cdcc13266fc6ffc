//! Document 01, 'Refusal numbers': the numbers, the limits they guard, and how work stops.

/// Why the formatter stops for good.
#[derive(Clone, Copy, Debug, PartialEq, Eq)]
pub enum Stop {
    Done,
    Refused(u8),
}

/// The result of a piece of work that may stop the formatter. "The others come in reading order: the first event that
/// earns one decides."
pub type Work<T> = Result<T, Stop>;

/// "store not 8,192 long, or the record breaks a limit below"
pub const BAD_STORE: Stop = Stop::Refused(1);
/// "a source byte other than 10 and 32 to 126 (H)"
pub const BAD_BYTE: Stop = Stop::Refused(2);
/// "a source line or expanded line passes 512 bytes"
pub const LONG_LINE: Stop = Stop::Refused(3);
/// "strings nested past 8, or past 8,192 bytes scanned for one line"
pub const DEEP_STRINGS: Stop = Stop::Refused(4);
/// "an escape not listed, or cut short in its line or string"
pub const BAD_ESCAPE: Stop = Stop::Refused(5);
/// "number malformed, literal, step or result outside ±1,000,000,000, zero divisor, parentheses past 8 deep"
pub const BAD_NUMBER: Stop = Stop::Refused(6);
/// "value out of range, a predefined register written or stepped, or a name argument longer than two bytes"
pub const BAD_VALUE: Stop = Stop::Refused(7);
/// "a macro definition not ended when its input ends"
pub const OPEN_DEFINITION: Stop = Stop::Refused(8);
/// "a text on the input stack redefined or removed, or a macro named as a string"
pub const TEXT_IN_USE: Stop = Stop::Refused(9);
/// "input stack past 16 items (..), or past 10,000 stored lines read for one source line"
pub const DEEP_INPUT: Stop = Stop::Refused(10);
/// "a 65th register, 65th name, 17th trap, or live text past 8,192 bytes"
pub const TABLE_FULL: Stop = Stop::Refused(11);
/// "past 1,000,000 source lines or pages"
pub const TOO_LONG: Stop = Stop::Refused(12);

pub const STORE_LENGTH: usize = 8192;
pub const LINE_LIMIT: usize = 512;
pub const NESTING_LIMIT: usize = 8;
pub const SCAN_LIMIT: usize = 8192;
pub const NUMBER_LIMIT: i64 = 1_000_000_000;
pub const PARENTHESES_LIMIT: usize = 8;
pub const STACK_LIMIT: usize = 16;
pub const STORED_LINES_LIMIT: u32 = 10_000;
pub const REGISTER_LIMIT: usize = 64;
pub const NAME_LIMIT: usize = 64;
pub const TRAP_LIMIT: usize = 16;
pub const LIVE_TEXT_LIMIT: usize = 8192;
pub const SOURCE_LINE_LIMIT: u32 = 1_000_000;
pub const PAGE_LIMIT: u32 = 1_000_000;
