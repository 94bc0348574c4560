//! Kinds of items of trivia.

/// Blanks and tabs.
pub const WHITESPACE: u32 = 1;
/// LF or CRLF.
pub const NEWLINE: u32 = 2;
/// Block comments nest.
pub const BLOCK_COMMENT: u32 = 3;
/// Without its line end.
pub const LINE_COMMENT: u32 = 4;
/// A block comment that runs to the end of the text.
pub const UNTERMINATED: u32 = 5;
