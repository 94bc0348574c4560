//! Kinds of rows. 1 to 24 are statements and other tokens. A detail is 0 where none is named.

/// `.align`.
pub const ALIGN: u32 = 1;
/// `.assert`.
pub const ASSERT: u32 = 2;
/// A block as a statement (detail: scope number).
pub const BRACES: u32 = 3;
/// A config map.
pub const CONFIG: u32 = 4;
/// `key = value` in a config map.
pub const CONFIG_PAIR: u32 = 5;
/// `.byte`, `.word`, `.dword`.
pub const DATA: u32 = 6;
/// `.define`.
pub const DEFINITION: u32 = 7;
/// The end of the text; its body is what no statement took.
pub const EOF: u32 = 8;
/// Text that no statement took.
pub const ERROR: u32 = 9;
/// An expression as a config value.
pub const EXPRESSION: u32 = 10;
/// `.if`.
pub const IF: u32 = 11;
/// `.import` (detail: scope number).
pub const IMPORT: u32 = 12;
/// `.file`.
pub const FILE: u32 = 13;
/// A mnemonic, with or without an operand.
pub const INSTRUCTION: u32 = 14;
/// `name:`, with or without a block.
pub const LABEL: u32 = 15;
/// `.loop` (detail: scope number).
pub const LOOP: u32 = 16;
/// `.macro`.
pub const MACRO_DEFINITION: u32 = 17;
/// A macro call as a statement.
pub const MACRO_INVOCATION: u32 = 18;
/// `* = expression`.
pub const PROGRAM_COUNTER_DEFINITION: u32 = 19;
/// `.segment`.
pub const SEGMENT: u32 = 20;
/// `.test`.
pub const TEST: u32 = 21;
/// `.text`.
pub const TEXT: u32 = 22;
/// `.trace`.
pub const TRACE: u32 = 23;
/// `.var`, `.const`.
pub const VARIABLE_DEFINITION: u32 = 24;
/// Braces and what stands in them.
pub const BLOCK: u32 = 30;
/// An operand (detail: `detail::mode`).
pub const OPERAND: u32 = 31;
/// A string with its pieces and paths.
pub const STRING: u32 = 32;
/// An expression of two and an operator.
pub const BINARY: u32 = 33;
/// A factor (detail: `detail::factor`, added).
pub const FACTOR: u32 = 34;
/// `*` as a factor.
pub const CURRENT_PC: u32 = 35;
/// An expression in parentheses.
pub const PARENS: u32 = 36;
/// A call in an expression.
pub const CALL: u32 = 37;
/// A path as a factor.
pub const IDENTIFIER: u32 = 38;
/// A number: its type (49) and its text (50).
pub const NUMBER: u32 = 39;
/// A string as a factor.
pub const STRING_FACTOR: u32 = 40;
/// A character (detail: its byte).
pub const CHAR: u32 = 41;
/// A directive, `else`, `from`, `as`, a config key.
pub const WORD: u32 = 42;
/// A name.
pub const NAME: u32 = 43;
/// Names joined by `.`.
pub const PATH: u32 = 44;
/// A piece of a string.
pub const PIECE: u32 = 45;
/// A mnemonic (detail: `detail::mnemonic`).
pub const MNEMONIC: u32 = 46;
/// A register (detail: `detail::register`).
pub const REGISTER: u32 = 47;
/// An operator (detail: `detail::operator`).
pub const OPERATOR: u32 = 48;
/// A number's type (detail: `detail::number_type`); empty for a decimal.
pub const NUMBER_TYPE: u32 = 49;
/// A number's text, for vireopatch_value.
pub const NUMBER_TEXT: u32 = 50;
/// `>` or `<` before a path (detail: `detail::modifier`).
pub const MODIFIER: u32 = 51;
/// The word of a data statement (detail: `detail::data_size`).
pub const DATA_SIZE: u32 = 52;
/// `.const` or `.var` (detail: `detail::variable_type`).
pub const VARIABLE_TYPE: u32 = 53;
/// A text's encoding (detail: `detail::encoding`).
pub const ENCODING: u32 = 54;
/// A path of an import, with or without `as` and another.
pub const IMPORT_ARGUMENT: u32 = 55;
/// The value of a config pair.
pub const CONFIG_VALUE: u32 = 56;
