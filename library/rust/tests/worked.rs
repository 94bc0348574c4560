//! Document 01's worked texts, and its refusals; the shares of document 02 (F-14).

use vireopatch::{
    column, detail, enough, item, items, kind, read, shares, text_words, value, walk, NumberType,
    Reading, Refusal, Shares, State, Subtree, TextWords, ERROR, ITEM, MAX_LEVEL, MAX_TEXT,
    MAX_TEXTS, REQUEST, ROW, TEXT,
};

struct Tables {
    rows: Vec<[u32; ROW]>,
    errors: Vec<[u32; ERROR]>,
    requests: Vec<[u32; REQUEST]>,
    end: State,
}

fn records<const N: usize>(words: &[u32], count: usize) -> Vec<[u32; N]> {
    assert!(
        words[count * N..].iter().all(|w| *w == 0),
        "words past the last record are zero"
    );
    words
        .chunks_exact(N)
        .take(count)
        .map(|r| r.try_into().unwrap())
        .collect()
}

fn tables_from(text: &str, start: State) -> Tables {
    let n = text.len();
    let mut rows = vec![7; enough::row_words(n)];
    let mut errors = vec![7; enough::error_words(n)];
    let mut requests = vec![7; enough::request_words(n)];
    let r = read(
        text.as_bytes(),
        start,
        MAX_LEVEL,
        &mut rows,
        &mut errors,
        &mut requests,
    )
    .unwrap();
    Tables {
        rows: records(&rows, r.rows),
        errors: records(&errors, r.errors),
        requests: records(&requests, r.requests),
        end: r.end,
    }
}

fn tables(text: &str) -> Tables {
    tables_from(text, State::default())
}

/// A call in room for so many records of each kind.
fn in_room(
    text: &[u8],
    start: State,
    level: usize,
    room: [usize; 3],
) -> (Result<Reading, Refusal>, [Vec<u32>; 3]) {
    let mut rows = vec![7; room[0] * ROW];
    let mut errors = vec![7; room[1] * ERROR];
    let mut requests = vec![7; room[2] * REQUEST];
    let r = read(text, start, level, &mut rows, &mut errors, &mut requests);
    (r, [rows, errors, requests])
}

/// Kind, low and high of the top rows, by `walk`.
fn top(t: &Tables) -> Vec<(u32, u32, u32)> {
    let words: Vec<u32> = t.rows.iter().flatten().copied().collect();
    let mut out = vec![];
    let mut count = t.rows.len();
    while count > 0 {
        let s = walk(&words, count).unwrap();
        let r = t.rows[s.root];
        out.push((r[0], r[3], r[4]));
        count = s.before;
    }
    out.reverse();
    out
}

fn of_kind(t: &Tables, kind: u32) -> Vec<[u32; ROW]> {
    t.rows.iter().filter(|r| r[0] == kind).copied().collect()
}

#[test]
fn empty() {
    let t = tables("");
    assert_eq!(t.rows, [[kind::EOF, 1, 0, 0, 0, 0, 1]]);
    assert!(t.errors.is_empty() && t.requests.is_empty());
    assert_eq!(t.end, State::default());
}

#[test]
fn instruction() {
    let t = tables("lda #1\n");
    assert_eq!(
        t.rows,
        [
            [kind::MNEMONIC, 1, 0, 0, 3, detail::mnemonic::LDA, 1],
            [kind::CHAR, 1, 3, 4, 5, b'#' as u32, 1],
            [kind::NUMBER_TYPE, 1, 5, 5, 5, detail::number_type::DEC, 1],
            [kind::NUMBER_TEXT, 1, 5, 5, 6, 0, 1],
            [kind::NUMBER, 3, 5, 5, 6, 0, 1],
            [kind::FACTOR, 4, 5, 5, 6, 0, 1],
            [kind::OPERAND, 6, 3, 4, 6, detail::mode::IMMEDIATE, 1],
            [kind::INSTRUCTION, 8, 0, 0, 6, 0, 1],
            [kind::EOF, 1, 6, 7, 7, 0, 2],
        ]
    );
    assert!(t.errors.is_empty() && t.requests.is_empty());
    assert_eq!(t.end, State::default());
}

/// A CR counts nothing, and the line feeds in a row's trivia count.
#[test]
fn lines() {
    let at = |text| -> Vec<u32> { tables(text).rows.iter().map(|r| r[column::LINE]).collect() };
    assert_eq!(at("\n\n\n"), [4]);
    assert_eq!(at("\r\n"), [2]);
    assert_eq!(at("\r"), [1]);
    assert_eq!(at("nop\n /*\n*/ nop"), [1, 1, 3, 3, 3]);
    // the end of a block, the block and the statement; the end that is supplied copies the place of the brace
    assert_eq!(at("\n{\nnop\n}"), [2, 3, 3, 4, 2, 2, 4]);
    assert_eq!(at("\n{\nnop\n"), [2, 3, 3, 2, 2, 2, 4]);
}

#[test]
fn eof_bodies() {
    let t = tables(")");
    assert_eq!(top(&t), [(kind::EOF, 0, 1)]);
    assert!(t.errors.is_empty());
    let t = tables("nop\rnop");
    assert_eq!(top(&t), [(kind::INSTRUCTION, 0, 3), (kind::EOF, 3, 7)]);
    assert!(t.errors.is_empty());
}

#[test]
fn comments() {
    let t = tables("/* abc");
    assert_eq!(t.errors, [[1, 6, 6]]);
    assert!(t.end.swallow);
    let t = tables("{/* abc");
    assert_eq!(t.errors, [[1, 7, 7], [1, 7, 7]]);
    let t = tables(".text \"{/*}\"");
    assert_eq!(top(&t), [(kind::ERROR, 0, 12), (kind::EOF, 12, 12)]);
    assert_eq!(t.errors, [[1, 12, 12]]);
    assert!(!t.end.swallow);
}

#[test]
fn operands() {
    assert_eq!(
        top(&tables("asl\nrow(1)")),
        [(kind::INSTRUCTION, 0, 10), (kind::EOF, 10, 10)]
    );
    let t = tables("lda (1)+2");
    assert_eq!(of_kind(&t, kind::OPERAND)[0][3..5], [4, 7]);
    assert_eq!(t.errors, [[2, 7, 9]]);
    let t = tables("include(1)");
    assert_eq!(t.rows[0][5], detail::mnemonic::INC);
    assert_eq!(of_kind(&t, kind::CALL)[0][3..5], [3, 10]);
    let t = tables("lda -(3)");
    assert_eq!(of_kind(&t, kind::OPERAND)[0][3..5], [4, 5]);
    assert_eq!(t.errors, [[2, 5, 7]]);
    assert_eq!(
        top(&t),
        [
            (kind::INSTRUCTION, 0, 5),
            (kind::ERROR, 5, 7),
            (kind::EOF, 7, 8)
        ]
    );
}

#[test]
fn scopes_and_data() {
    let t = tables("{{}}");
    let scopes: Vec<u32> = of_kind(&t, kind::BRACES).iter().map(|r| r[5]).collect();
    assert_eq!(scopes, [1, 2], "inner first");
    assert_eq!(tables(".byte\n").errors, [[3, 5, 5]]);
    assert_eq!(tables(".byte trueish").errors, [[2, 10, 13]]);
    assert_eq!(tables(".import * from \"a\"").requests, [[15, 17]]);
}

#[test]
fn start_states() {
    let from = |scope, swallow| State { scope, swallow };
    let t = tables_from("{}", from(41, false));
    assert_eq!((t.end, t.rows[3][5]), (from(42, false), 42));
    let t = tables_from("?", from(0, true));
    assert!(t.errors.is_empty() && t.end == from(0, false));
    assert_eq!(tables_from("", from(7, true)).end, from(7, true));
}

#[test]
fn refusals_that_leave_the_tables() {
    let start = State::default();
    let large = State {
        scope: 1_000_001,
        swallow: false,
    };
    let long = vec![b' '; 65_537];
    let cases = [
        in_room(&long, start, 64, [9, 9, 9]),
        in_room(b"nop //\xc8", start, 64, [9, 9, 9]),
        in_room(b"", large, 65, [9, 9, 9]),
        in_room(b"", start, 65, [9, 9, 9]),
    ];
    let refusals = [
        Refusal::TooLong(65_537),
        Refusal::HighByte(6),
        Refusal::ScopeTooLarge(1_000_001),
        Refusal::LevelTooLarge(65),
    ];
    for ((answer, tables), refusal) in cases.iter().zip(refusals) {
        assert_eq!(*answer, Err(refusal));
        assert!(tables.iter().flatten().all(|w| *w == 7));
    }
}

#[test]
fn refusals_that_zero_the_tables() {
    let start = State {
        scope: 7,
        swallow: false,
    };
    let cases = [
        (
            in_room(b"lda (1)", start, 0, [99, 9, 9]),
            Refusal::TooDeep(0),
        ),
        (
            in_room(b"lda 1", start, 64, [7, 9, 9]),
            Refusal::NoRoomForRows(8),
        ),
        (
            in_room(b"{/* abc", start, 64, [99, 1, 9]),
            Refusal::NoRoomForErrors(2),
        ),
        (
            in_room(b".import * from \"a\"", start, 64, [99, 9, 0]),
            Refusal::NoRoomForRequests(1),
        ),
    ];
    for ((answer, tables), refusal) in &cases {
        assert_eq!(*answer, Err(*refusal));
        assert!(tables.iter().flatten().all(|w| *w == 0));
    }
    assert!(in_room(b"lda 1", start, 0, [8, 0, 0]).0.is_ok());
    assert!(in_room(b"lda 1", start, 64, [8, 0, 0]).0.is_ok());
}

#[test]
fn values() {
    use NumberType::{Bin, Dec, Hex};
    assert_eq!(value(Hex, b"D020"), Ok(53_280));
    assert_eq!(value(Dec, b"007"), Ok(7));
    assert_eq!(value(Bin, b"1010"), Ok(10));
    assert_eq!(value(Bin, b"true"), Ok(1));
    assert_eq!(value(Dec, b"false"), Ok(0));
    assert_eq!(value(Dec, b"TRUE"), Ok(1));
    assert_eq!(value(Hex, b"False"), Ok(0));
    assert_eq!(value(Dec, b"TRUEX"), Err(Refusal::NotANumber));
    assert_eq!(value(Dec, b""), Err(Refusal::NotANumber));
    assert_eq!(value(Dec, b"+1"), Err(Refusal::NotANumber));
    assert_eq!(
        value(Dec, b"9223372036854775807"),
        Ok(vireopatch::MAX_VALUE)
    );
    assert_eq!(
        value(Dec, b"9223372036854775808"),
        Err(Refusal::ValueTooLarge)
    );
    let mut zeros = vec![b'0'; 65_535];
    zeros.push(b'1');
    assert_eq!(value(Hex, &zeros), Ok(1));
    assert_eq!(NumberType::from_detail(2), Some(Dec));
    assert_eq!(NumberType::from_detail(4), None);
}

#[test]
fn trivia() {
    let run = b"\r\n\n  // x\r\n/**//*";
    let mut table = [7; 8 * ITEM];
    assert_eq!(items(run, &mut table), Ok(7));
    let kinds: Vec<u32> = table.chunks_exact(ITEM).map(|r| r[0]).collect();
    let wanted = [
        item::NEWLINE,
        item::NEWLINE,
        item::WHITESPACE,
        item::LINE_COMMENT,
        item::NEWLINE,
        item::BLOCK_COMMENT,
        item::UNTERMINATED,
        0,
    ];
    assert_eq!(kinds, wanted);
    assert_eq!(table[18..], [5, 15, 17, 0, 0, 0]);
    let mut small = [7; 20];
    assert_eq!(items(run, &mut small), Err(Refusal::NoRoomForItems(7)));
    assert_eq!(small, [0; 20]);
    let mut left = [7; 9];
    assert_eq!(items(b" //", &mut left), Err(Refusal::NoItem(1)));
    assert_eq!(left, [7; 9]);
    assert_eq!(items(b"", &mut []), Ok(0));
}

#[test]
fn walks() {
    let t = tables("lda 1");
    let words: Vec<u32> = t.rows.iter().flatten().copied().collect();
    assert_eq!(walk(&words, 8), Ok(Subtree { root: 7, before: 7 }));
    assert_eq!(walk(&words, 7), Ok(Subtree { root: 6, before: 0 }));
    assert_eq!(walk(&words, 0), Err(Refusal::NoSubtree(0)));
    assert_eq!(walk(&words, 9), Err(Refusal::NoSubtree(9)));
    assert_eq!(walk(&words[..8 * ROW - 1], 8), Err(Refusal::NoSubtree(8)));
    assert_eq!(walk(&[0; ROW], 1), Err(Refusal::NoSubtree(1)));
}

/// The share, and the indexes that are there; absent ones are 0.
fn shared(words: &[u32]) -> Result<(u64, u64, Vec<usize>), Refusal> {
    let found = shares(words)?;
    assert!(found.largest[found.count..].iter().all(|i| *i == 0));
    let largest = found.indexes().to_vec();
    Ok((found.numerator, found.denominator, largest))
}

#[test]
fn shares_of_lists() {
    assert_eq!(shared(&[]), Ok((0, 1, vec![])));
    assert_eq!(shared(&[u32::MAX]), Ok((0, 1, vec![])), "unpaired");
    assert_eq!(shared(&[0, 0]), Ok((0, 1, vec![0])));
    assert_eq!(shared(&[0, 4, 0, 0]), Ok((0, 1, vec![0, 1])));
    assert_eq!(shared(&[7, 7]), Ok((1, 1, vec![0])));
    assert_eq!(shared(&[6, 12, 9]), Ok((1, 2, vec![0])), "unpaired");
    assert_eq!(shared(&[1, 9, 2, 9]), Ok((1, 6, vec![1, 0])));
    // 1/3, 2/6, 2/4 and 1/3 again
    let words = [1, 3, 2, 6, 2, 4, 3, 9];
    assert_eq!(shared(&words), Ok((4, 11, vec![2, 0, 1])));
    // a text of no bytes is behind one with trivia, and before a later one without
    assert_eq!(shared(&[0, 0, 0, 5, 1, 5]), Ok((1, 10, vec![2, 0, 1])));
    let found = Shares {
        numerator: 4,
        denominator: 11,
        count: 3,
        largest: [2, 0, 1],
    };
    assert_eq!(shares(&words), Ok(found));
}

/// Shares that differ by about one in 2^32.
#[test]
fn close_shares() {
    let words = [65_534, 65_535, 65_535, 65_536, 65_533, 65_534];
    assert_eq!(shared(&words), Ok((65_534, 65_535, vec![1, 0, 2])));
}

#[test]
fn refused_lists() {
    let most = MAX_TEXT as u32;
    assert_eq!(shared(&[most, most]), Ok((1, 1, vec![0])));
    assert_eq!(shared(&[0, most + 1]), Err(Refusal::WrongText(0)));
    assert_eq!(shared(&[0, 1, 1, 0]), Err(Refusal::WrongText(1)));
    let wrong = [1, 1, 0, u32::MAX, 9, 8];
    assert_eq!(shared(&wrong), Err(Refusal::WrongText(1)), "the first");
    // 27 before 28, and by whole texts
    let mut words = vec![1; (MAX_TEXTS + 1) * TEXT];
    words[1] = 0;
    assert_eq!(shared(&words), Err(Refusal::TooManyTexts(1001)));
    words.pop();
    assert_eq!(shared(&words), Err(Refusal::WrongText(0)));
    words[1] = 1;
    assert_eq!(shared(&words), Ok((1, 1, vec![0, 1, 2])));
    assert_eq!(Refusal::TooManyTexts(1001).numbers(), (27, 1001));
    assert_eq!(Refusal::WrongText(0).numbers(), (28, 0));
}

/// A text's two words with room for so many top rows, and the table afterwards.
fn words_in(
    text: &[u8],
    rows: &[u32],
    count: usize,
    room: usize,
) -> (Result<(u32, u32), Refusal>, Vec<usize>) {
    let mut roots = vec![7; room];
    let words = text_words(text, rows, count, &mut roots);
    (words.map(|w| (w.trivia, w.length)), roots)
}

#[test]
fn words_of_texts() {
    let text = b"lda  1 // x\n";
    let t = tables("lda  1 // x\n");
    let rows: Vec<u32> = t.rows.iter().flatten().copied().collect();
    assert_eq!(t.rows.len(), 8, "the instruction is row 6, the end row 7");
    let words = TextWords {
        trivia: 6,
        length: 12,
    };
    assert_eq!(text_words(text, &rows, 8, &mut [7; 2]), Ok(words));
    let (answer, no_room) = (Ok((6, 12)), Err(Refusal::NoRoomForRows(2)));
    assert_eq!(words_in(text, &rows, 8, 2), (answer, vec![6, 7]));
    assert_eq!(words_in(text, &rows, 8, 4), (answer, vec![6, 7, 0, 0]));
    assert_eq!(words_in(text, &rows, 8, 1), (no_room, vec![0]));
    assert_eq!(words_in(text, &rows, 8, 0), (no_room, vec![]));
    // the instruction alone, and no row at all: what the count says
    assert_eq!(words_in(text, &rows, 7, 2), (Ok((0, 12)), vec![6, 0]));
    assert_eq!(words_in(text, &rows, 0, 2), (Ok((0, 12)), vec![0, 0]));
    assert_eq!(words_in(b"", &[], 0, 0), (Ok((0, 0)), vec![]));
}

#[test]
fn refused_words_of_texts() {
    let row = |size, tlow, low| [kind::ERROR, size, tlow, low, low, 0, 1];
    let two = |first: [u32; ROW], second: [u32; ROW]| [first, second].concat();
    // 13 gives the count at which no subtree ends, and leaves the table; it comes before 6 and 28
    let text = b"abc";
    let rows = two(row(1, 0, 2), row(1, 2, 3));
    let no_subtree = |count| (Err(Refusal::NoSubtree(count)), vec![7; 3]);
    assert_eq!(words_in(text, &rows, 2, 3), (Ok((3, 3)), vec![0, 1, 0]));
    assert_eq!(words_in(text, &rows, 3, 3), no_subtree(3));
    assert_eq!(words_in(text, &rows[..2 * ROW - 1], 2, 3), no_subtree(2));
    assert_eq!(words_in(text, &rows, usize::MAX, 3), no_subtree(usize::MAX));
    let rows = two(row(0, 0, 9), row(1, 0, 9));
    assert_eq!(words_in(text, &rows, 2, 3), no_subtree(1));
    assert_eq!(words_in(text, &rows, 2, 0).0, no_subtree(1).0);
    let rows = two(row(1, 0, 0), row(3, 0, 0));
    assert_eq!(words_in(text, &rows, 2, 3), no_subtree(2));
    // 28 gives 0, and lists the top rows; 6 comes before it
    let wrong = Err(Refusal::WrongText(0));
    let rows = two(row(1, 0, 2), row(1, 1, 3));
    assert_eq!(words_in(text, &rows, 2, 3), (wrong, vec![0, 1, 0]));
    let no_room = Err(Refusal::NoRoomForRows(2));
    assert_eq!(words_in(text, &rows, 2, 1), (no_room, vec![0]));
    assert_eq!(words_in(b"abcd", &rows, 2, 2), (Ok((4, 4)), vec![0, 1]));
    let rows = two(row(1, 0, u32::MAX), row(1, 0, u32::MAX));
    assert_eq!(words_in(text, &rows, 2, 2), (wrong, vec![0, 1]));
    let long = vec![b' '; MAX_TEXT + 1];
    let rows = two(row(1, 0, 0), row(2, 0, 1));
    assert_eq!(words_in(&long, &rows, 2, 2), (wrong, vec![1, 0]));
    let longest = Ok((1, MAX_TEXT as u32));
    assert_eq!(words_in(&long[1..], &rows, 2, 2), (longest, vec![1, 0]));
    // a row whose low is before its tlow has no trivia
    let rows = two(row(1, 3, 1), row(1, 1, 2));
    assert_eq!(words_in(text, &rows, 2, 2), (Ok((1, 3)), vec![0, 1]));
}
