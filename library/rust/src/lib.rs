//! Safe calls of the verified MOS assembly reader: [`read`], [`value`], [`items`], [`walk`], [`shares`], [`text_words`].
//!
//! The functions behind them are written in Rattle and proved; `library/vireopatch.h` says what they do, word for word. Here slices carry
//! their lengths, and a refusal is an `Err`. Nothing allocates and nothing panics.
//!
//! ```
//! use vireopatch::{column, enough, kind, read, State, ROW};
//!
//! let text = b"lda #1\n";
//! let mut rows = vec![0; enough::row_words(text.len())];
//! let mut errors = vec![0; enough::error_words(text.len())];
//! let mut requests = vec![0; enough::request_words(text.len())];
//! let reading = read(text, State::default(), 64, &mut rows, &mut errors, &mut requests).unwrap();
//! assert_eq!((reading.rows, reading.errors, reading.requests), (9, 0, 0));
//! assert_eq!(rows[8 * ROW + column::KIND], kind::EOF);
//! assert_eq!(rows[8 * ROW + column::LINE], 2);
//! ```

#![no_std]

pub mod code;
pub mod column;
pub mod detail;
pub mod item;
pub mod kind;

/// Words of a row: kind, size, tlow, low, high, detail, line ([`column`]). Rows stand children first, then the parent; size counts the rows of the
/// subtree. Trivia is tlow to low, the body low to high; places are byte offsets. The line is 1 plus the LF bytes of the text before low.
pub const ROW: usize = 7;

/// Words of an error: code, low, high.
pub const ERROR: usize = 3;

/// Words of an import request: low, high, from the file name's opening quote to its last piece, without the closing quote.
pub const REQUEST: usize = 2;

/// Words of an item of trivia: kind, low, high.
pub const ITEM: usize = 3;

/// Words of a text in a list of shares: trivia, length.
pub const TEXT: usize = 2;

/// The longest text.
pub const MAX_TEXT: usize = 65_536;

/// The largest starting scope number.
pub const MAX_SCOPE: usize = 1_000_000;

/// The largest level limit.
pub const MAX_LEVEL: usize = 64;

/// The largest value of a number.
pub const MAX_VALUE: u64 = 9_223_372_036_854_775_807;

/// The most texts in a list of shares.
pub const MAX_TEXTS: usize = 1_000;

/// Words that are enough for every text of so many bytes.
pub mod enough {
    pub const fn row_words(bytes: usize) -> usize {
        (4 * bytes + 1) * super::ROW
    }

    pub const fn error_words(bytes: usize) -> usize {
        (bytes + 1) * super::ERROR
    }

    pub const fn request_words(bytes: usize) -> usize {
        bytes * super::REQUEST
    }

    pub const fn item_words(bytes: usize) -> usize {
        bytes * super::ITEM
    }
}

/// The state that goes from one text to the next. The default is that of a first text.
#[derive(Clone, Copy, Debug, Default, PartialEq, Eq)]
pub struct State {
    /// The last scope number that was given.
    pub scope: usize,
    /// Whether the next report is lost.
    pub swallow: bool,
}

/// How many records a text has of each kind, and the state to read a next text from.
#[derive(Clone, Copy, Debug, PartialEq, Eq)]
pub struct Reading {
    pub rows: usize,
    pub errors: usize,
    pub requests: usize,
    pub end: State,
}

/// The last subtree of a row table.
#[derive(Clone, Copy, Debug, PartialEq, Eq)]
pub struct Subtree {
    /// The number of its root, counted from 0.
    pub root: usize,
    /// How many rows stand before it.
    pub before: usize,
}

/// How much of a list of texts is trivia, and which of them have the largest shares.
#[derive(Clone, Copy, Debug, PartialEq, Eq)]
pub struct Shares {
    /// The pooled share, all trivia over all lengths, in lowest terms; 0 over 1 for no trivia or no bytes.
    pub numerator: u64,
    pub denominator: u64,
    /// How many of the largest there are: 3, or the number of texts if that is less.
    pub count: usize,
    /// Their indexes: the largest share first, equal ones by earlier index; 0 for one that is absent.
    pub largest: [usize; 3],
}

impl Shares {
    /// The indexes that are there.
    pub fn indexes(&self) -> &[usize] {
        &self.largest[..self.count.min(3)]
    }
}

/// The two words of a text in a list of shares.
#[derive(Clone, Copy, Debug, PartialEq, Eq)]
pub struct TextWords {
    /// The trivia bytes of its top rows.
    pub trivia: u32,
    pub length: u32,
}

/// A number's type: the detail of a row of kind [`kind::NUMBER_TYPE`].
#[derive(Clone, Copy, Debug, PartialEq, Eq)]
pub enum NumberType {
    Hex = 1,
    Dec = 2,
    Bin = 3,
}

impl NumberType {
    /// The type that a row's detail says.
    pub fn from_detail(detail: u32) -> Option<NumberType> {
        match detail {
            1 => Some(NumberType::Hex),
            2 => Some(NumberType::Dec),
            3 => Some(NumberType::Bin),
            _ => None,
        }
    }
}

/// Why a call gives no answer, and the number that the refusal gives.
#[derive(Clone, Copy, Debug, PartialEq, Eq)]
pub enum Refusal {
    /// 1: over [`MAX_TEXT`] bytes; the length.
    TooLong(usize),
    /// 2: a byte of 128 or more; the first such place.
    HighByte(usize),
    /// 3: a starting scope number over [`MAX_SCOPE`]; the number.
    ScopeTooLarge(usize),
    /// 4: a level limit over [`MAX_LEVEL`]; the limit.
    LevelTooLarge(usize),
    /// 5: some attempt goes to a level above the limit; the limit.
    TooDeep(usize),
    /// 6: the number of rows needed; of [`text_words`], of top rows.
    NoRoomForRows(usize),
    /// 7: the number of errors needed.
    NoRoomForErrors(usize),
    /// 8: the number of requests needed.
    NoRoomForRequests(usize),
    /// 9: a value above [`MAX_VALUE`].
    ValueTooLarge,
    /// 10: anything but `true` and `false`, in any letter case, or one or more digits of the base.
    NotANumber,
    /// 11: the first place that starts no item of trivia.
    NoItem(usize),
    /// 12: the number of items needed.
    NoRoomForItems(usize),
    /// 13: the count at which no subtree ends: above the rows that the table holds, or less than the size of its last row, or that size is 0; of
    /// [`walk`], 0 too.
    NoSubtree(usize),
    /// 27: over [`MAX_TEXTS`] texts; their number.
    TooManyTexts(usize),
    /// 28: trivia above the length, or a length over [`MAX_TEXT`]; the first such index.
    WrongText(usize),
    /// A number that this wrapper does not know, of another version of the library.
    Other(u32, usize),
}

impl Refusal {
    /// The refusal's number, and the number that it gives.
    pub fn numbers(self) -> (u32, usize) {
        match self {
            Refusal::TooLong(n) => (1, n),
            Refusal::HighByte(n) => (2, n),
            Refusal::ScopeTooLarge(n) => (3, n),
            Refusal::LevelTooLarge(n) => (4, n),
            Refusal::TooDeep(n) => (5, n),
            Refusal::NoRoomForRows(n) => (6, n),
            Refusal::NoRoomForErrors(n) => (7, n),
            Refusal::NoRoomForRequests(n) => (8, n),
            Refusal::ValueTooLarge => (9, 0),
            Refusal::NotANumber => (10, 0),
            Refusal::NoItem(n) => (11, n),
            Refusal::NoRoomForItems(n) => (12, n),
            Refusal::NoSubtree(n) => (13, n),
            Refusal::TooManyTexts(n) => (27, n),
            Refusal::WrongText(n) => (28, n),
            Refusal::Other(code, n) => (code, n),
        }
    }

    fn of(code: u32, given: usize) -> Refusal {
        match code {
            1 => Refusal::TooLong(given),
            2 => Refusal::HighByte(given),
            3 => Refusal::ScopeTooLarge(given),
            4 => Refusal::LevelTooLarge(given),
            5 => Refusal::TooDeep(given),
            6 => Refusal::NoRoomForRows(given),
            7 => Refusal::NoRoomForErrors(given),
            8 => Refusal::NoRoomForRequests(given),
            9 => Refusal::ValueTooLarge,
            10 => Refusal::NotANumber,
            11 => Refusal::NoItem(given),
            12 => Refusal::NoRoomForItems(given),
            13 => Refusal::NoSubtree(given),
            27 => Refusal::TooManyTexts(given),
            28 => Refusal::WrongText(given),
            _ => Refusal::Other(code, given),
        }
    }
}

impl core::fmt::Display for Refusal {
    fn fmt(&self, f: &mut core::fmt::Formatter) -> core::fmt::Result {
        let (code, given) = self.numbers();
        write!(f, "refusal {code}, which gives {given}")
    }
}

impl core::error::Error for Refusal {}

/// Reads a text from a starting state, with a level limit of at most [`MAX_LEVEL`], into tables whose room is their length by [`ROW`],
/// [`ERROR`] and [`REQUEST`], rounded down. [`enough`] has lengths that always do.
///
/// Refusals 1 to 8, tested in this order. An answer leaves zeros behind the last records; 1 to 4 leave the tables as they were, 5 to 8 zero
/// all three. A text with mistakes is answered: the errors say what they are.
pub fn read(
    text: &[u8],
    start: State,
    level: usize,
    rows: &mut [u32],
    errors: &mut [u32],
    requests: &mut [u32],
) -> Result<Reading, Refusal> {
    let mut reading = Reading {
        rows: 0,
        errors: 0,
        requests: 0,
        end: start,
    };
    let mut given = 0;
    // SAFETY: the call stays inside the slices, needs nothing of its arguments, and keeps no pointer. Each pointer is of its own memory.
    let code = unsafe {
        vireopatch_read(
            text.as_ptr(),
            text.len(),
            start.scope,
            start.swallow,
            level,
            rows.as_mut_ptr(),
            rows.len(),
            errors.as_mut_ptr(),
            errors.len(),
            requests.as_mut_ptr(),
            requests.len(),
            &mut reading.rows,
            &mut reading.errors,
            &mut reading.requests,
            &mut reading.end.scope,
            &mut reading.end.swallow,
            &mut given,
        )
    };
    match code {
        0 => Ok(reading),
        _ => Err(Refusal::of(code, given)),
    }
}

/// The value of a number's text: the body of a row of kind [`kind::NUMBER_TEXT`], lent as it stands in the text that was read,
/// `&text[low..high]`. The outcome depends on these bytes and the type alone, at any length. `true` is 1 and `false` is 0, in any letter case.
/// Refusals 10, then 9.
pub fn value(number_type: NumberType, text: &[u8]) -> Result<u64, Refusal> {
    let mut value = 0;
    // SAFETY: as in `read`.
    let code =
        unsafe { vireopatch_value(number_type as u32, text.as_ptr(), text.len(), &mut value) };
    match code {
        0 => Ok(value),
        _ => Err(Refusal::of(code, 0)),
    }
}

/// Lists the items of one trivia run, tlow to low of a row, and gives their number. The table's room is its length by [`ITEM`].
///
/// Refusals 1, 2, 11, 12. An answer leaves zeros behind the last item; 1, 2 and 11 leave the table as it was, 12 zeroes it.
pub fn items(text: &[u8], table: &mut [u32]) -> Result<usize, Refusal> {
    let (mut count, mut given) = (0, 0);
    // SAFETY: as in `read`.
    let code = unsafe {
        vireopatch_items(
            text.as_ptr(),
            text.len(),
            table.as_mut_ptr(),
            table.len(),
            &mut count,
            &mut given,
        )
    };
    match code {
        0 => Ok(count),
        _ => Err(Refusal::of(code, given)),
    }
}

/// From a row count to the last subtree. Begin with the count of a [`Reading`] and go on with `before` until it is 0. Refusal 13.
pub fn walk(rows: &[u32], count: usize) -> Result<Subtree, Refusal> {
    let mut subtree = Subtree { root: 0, before: 0 };
    let mut given = 0;
    // SAFETY: as in `read`.
    let code = unsafe {
        vireopatch_walk(
            rows.as_ptr(),
            rows.len(),
            count,
            &mut subtree.root,
            &mut subtree.before,
            &mut given,
        )
    };
    match code {
        0 => Ok(subtree),
        _ => Err(Refusal::of(code, given)),
    }
}

/// How much of a list of texts is trivia: [`TEXT`] words a text, as [`text_words`] gives them, for at most [`MAX_TEXTS`]; an unpaired last
/// word is ignored. A text's share is its trivia over its length, 0 for a text of no bytes. Refusals 27, then 28.
pub fn shares(words: &[u32]) -> Result<Shares, Refusal> {
    let mut shares = Shares {
        numerator: 0,
        denominator: 0,
        count: 0,
        largest: [0; 3],
    };
    let [first, second, third] = &mut shares.largest;
    let mut given = 0;
    // SAFETY: as in `read`.
    let code = unsafe {
        vireopatch_shares(
            words.as_ptr(),
            words.len(),
            &mut shares.numerator,
            &mut shares.denominator,
            &mut shares.count,
            first,
            second,
            third,
            &mut given,
        )
    };
    match code {
        0 => Ok(shares),
        _ => Err(Refusal::of(code, given)),
    }
}

/// The two words of a text from its reading, the rows and their count: the trivia bytes of its top rows, tlow to low of each and that of the
/// end too, and its length. The numbers of the top rows are listed in `roots`, first to last; `count` words are always enough.
///
/// Refusals 13, 6, 28; 28 gives 0. An answer and 28 leave zeros behind the last top row; 13 leaves the table as it was, 6 zeroes it.
pub fn text_words(
    text: &[u8],
    rows: &[u32],
    count: usize,
    roots: &mut [usize],
) -> Result<TextWords, Refusal> {
    let mut words = TextWords {
        trivia: 0,
        length: 0,
    };
    let mut given = 0;
    // SAFETY: as in `read`.
    let code = unsafe {
        vireopatch_text_words(
            text.as_ptr(),
            text.len(),
            rows.as_ptr(),
            rows.len(),
            count,
            roots.as_mut_ptr(),
            roots.len(),
            &mut words.trivia,
            &mut words.length,
            &mut given,
        )
    };
    match code {
        0 => Ok(words),
        _ => Err(Refusal::of(code, given)),
    }
}

extern "C" {
    fn vireopatch_read(
        text: *const u8,
        text_len: usize,
        scope: usize,
        swallow: bool,
        level: usize,
        rows: *mut u32,
        rows_len: usize,
        errors: *mut u32,
        errors_len: usize,
        requests: *mut u32,
        requests_len: usize,
        row_count: *mut usize,
        error_count: *mut usize,
        request_count: *mut usize,
        end_scope: *mut usize,
        end_swallow: *mut bool,
        given: *mut usize,
    ) -> u32;

    fn vireopatch_value(number_type: u32, text: *const u8, text_len: usize, value: *mut u64)
        -> u32;

    fn vireopatch_items(
        text: *const u8,
        text_len: usize,
        table: *mut u32,
        table_len: usize,
        count: *mut usize,
        given: *mut usize,
    ) -> u32;

    fn vireopatch_walk(
        rows: *const u32,
        rows_len: usize,
        count: usize,
        root: *mut usize,
        before: *mut usize,
        given: *mut usize,
    ) -> u32;

    fn vireopatch_shares(
        words: *const u32,
        words_len: usize,
        numerator: *mut u64,
        denominator: *mut u64,
        count: *mut usize,
        first: *mut usize,
        second: *mut usize,
        third: *mut usize,
        given: *mut usize,
    ) -> u32;

    fn vireopatch_text_words(
        text: *const u8,
        text_len: usize,
        rows: *const u32,
        rows_len: usize,
        count: usize,
        roots: *mut usize,
        roots_len: usize,
        trivia: *mut u32,
        length: *mut u32,
        given: *mut usize,
    ) -> u32;
}

#[cfg(test)]
mod tests {
    /// Of a type that is none no text is a number. The enum keeps such a type out of the safe function, so the call is made without it.
    #[test]
    fn no_such_type() {
        for number_type in [0, 4, u32::MAX] {
            for text in [&b"1"[..], b"true", b"false", b"TRUE", b"", b"x"] {
                let mut value = 7;
                // SAFETY: as in `read`.
                let code = unsafe {
                    super::vireopatch_value(number_type, text.as_ptr(), text.len(), &mut value)
                };
                assert_eq!((code, value), (10, 0));
            }
        }
    }

    /// Every number is set, refused or not. The safe functions keep those of a refusal back, so the calls are made without them.
    #[test]
    fn numbers_of_shares() {
        let lists = [
            (&[3, 6][..], 0, [1, 2], [1, 0, 0, 0, 0]),
            (&[0; 2002], 27, [0; 2], [0, 0, 0, 0, 1001]),
            (&[0, 0, 1, 0], 28, [0; 2], [0, 0, 0, 0, 1]),
        ];
        for (words, refusal, share, sizes) in lists {
            let (mut found, mut rest) = ([7; 2], [7; 5]);
            let [numerator, denominator] = &mut found;
            let [count, first, second, third, given] = &mut rest;
            // SAFETY: as in `read`.
            let code = unsafe {
                super::vireopatch_shares(
                    words.as_ptr(),
                    words.len(),
                    numerator,
                    denominator,
                    count,
                    first,
                    second,
                    third,
                    given,
                )
            };
            assert_eq!((code, found, rest), (refusal, share, sizes));
        }
    }

    #[test]
    fn numbers_of_text_words() {
        // a row with a byte of trivia
        let rows = [8, 1, 0, 1, 1, 0, 1];
        let texts = [
            (&b" "[..], 1, 1, (0, 1, 1, 0)),
            (b" ", 2, 1, (13, 0, 0, 2)),
            (b" ", 1, 0, (6, 0, 0, 1)),
            (b"", 1, 1, (28, 0, 0, 0)),
        ];
        for (text, count, room, wanted) in texts {
            let mut roots = [7];
            let (mut trivia, mut length, mut given) = (7, 7, 7);
            // SAFETY: as in `read`.
            let code = unsafe {
                super::vireopatch_text_words(
                    text.as_ptr(),
                    text.len(),
                    rows.as_ptr(),
                    rows.len(),
                    count,
                    roots.as_mut_ptr(),
                    room,
                    &mut trivia,
                    &mut length,
                    &mut given,
                )
            };
            assert_eq!((code, trivia, length, given), wanted);
        }
    }
}
