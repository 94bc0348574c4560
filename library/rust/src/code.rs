//! Codes of errors. 3, 4 and 5 sit at the empty place where the wanted part would begin, before trivia; 1 at the end of the text.

pub const UNTERMINATED_COMMENT: u32 = 1;
/// The body of an error row.
pub const UNEXPECTED_TEXT: u32 = 2;
pub const EXPECTED_EXPRESSION: u32 = 3;
pub const CONFIGURATION_OBJECT: u32 = 4;
pub const CLOSING_DELIMITER: u32 = 5;
