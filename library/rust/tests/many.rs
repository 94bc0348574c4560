//! Random inputs, against plain Rust: numbers, trivia runs, walks of the rows of a text and its words, and lists of shares.

use vireopatch::{
    column, enough, item, items, read, shares, text_words, value, walk, NumberType, Refusal,
    Shares, State, TextWords, ITEM, MAX_LEVEL, MAX_TEXT, MAX_TEXTS, ROW, TEXT,
};

/// SplitMix64.
struct Rng(u64);

impl Rng {
    fn below(&mut self, n: usize) -> usize {
        self.0 = self.0.wrapping_add(0x9e37_79b9_7f4a_7c15);
        let mut z = self.0;
        z = (z ^ (z >> 30)).wrapping_mul(0xbf58_476d_1ce4_e5b9);
        z = (z ^ (z >> 27)).wrapping_mul(0x94d0_49bb_1331_11eb);
        ((z ^ (z >> 31)) % n as u64) as usize
    }

    fn pieces(&mut self, of: &[&str], most: usize) -> String {
        (0..self.below(most))
            .map(|_| of[self.below(of.len())])
            .collect()
    }
}

/// Number::value of the Rust: the words, then from_str_radix. Here the words are taken in any letter case, and a sign is no digit.
fn rust_value(radix: u32, text: &str) -> Result<u64, Refusal> {
    match text.to_ascii_lowercase().as_str() {
        "true" => return Ok(1),
        "false" => return Ok(0),
        _ => (),
    }
    if text.is_empty() || !text.chars().all(|c| c.is_digit(radix)) {
        return Err(Refusal::NotANumber);
    }
    match i64::from_str_radix(text, radix) {
        Ok(v) => Ok(v as u64),
        Err(_) => Err(Refusal::ValueTooLarge),
    }
}

#[test]
fn values() {
    let types = [
        (NumberType::Hex, 16),
        (NumberType::Dec, 10),
        (NumberType::Bin, 2),
    ];
    let pieces = [
        "0",
        "1",
        "1",
        "9",
        "10",
        "01",
        "ff",
        "A",
        "f",
        "7fffffff",
        "922337203685477580",
        "7",
        "8",
        "true",
        "false",
        "TRUE",
        "False",
        "T",
        "-",
        "+",
        "g",
        " ",
        "",
    ];
    let mut rng = Rng(1);
    for _ in 0..100_000 {
        let text = rng.pieces(&pieces, 8);
        let (number_type, radix) = types[rng.below(3)];
        assert_eq!(
            value(number_type, text.as_bytes()),
            rust_value(radix, &text),
            "{text:?} in base {radix}"
        );
    }
}

/// The end of a block comment, behind its opening mark.
fn comment_end(text: &[u8], mut at: usize) -> Option<usize> {
    let mut open = 1;
    while at + 1 < text.len() {
        match &text[at..at + 2] {
            b"/*" => open += 1,
            b"*/" => open -= 1,
            _ => {
                at += 1;
                continue;
            }
        }
        at += 2;
        if open == 0 {
            return Some(at);
        }
    }
    None
}

/// The item that starts here: its kind and its end.
fn rust_item(text: &[u8], at: usize) -> Option<(u32, usize)> {
    let rest = &text[at..];
    let run = |skip: usize, class: fn(&u8) -> bool| {
        at + skip + rest[skip..].iter().take_while(|b| class(b)).count()
    };
    match rest {
        [b' ' | b'\t', ..] => Some((item::WHITESPACE, run(0, |b| matches!(b, b' ' | b'\t')))),
        [b'\n', ..] => Some((item::NEWLINE, at + 1)),
        [b'\r', b'\n', ..] => Some((item::NEWLINE, at + 2)),
        [b'/', b'*', ..] => Some(match comment_end(text, at + 2) {
            Some(end) => (item::BLOCK_COMMENT, end),
            None => (item::UNTERMINATED, text.len()),
        }),
        [b'/', b'/', b, ..] if !matches!(b, b'\r' | b'\n') => {
            Some((item::LINE_COMMENT, run(2, |b| !matches!(b, b'\r' | b'\n'))))
        }
        _ => None,
    }
}

#[test]
fn trivia_runs() {
    let pieces = [
        " ", "\t", "\n", "\r\n", "\r", "/*", "*/", "/", "*", "// a", "//", "/* a */", "/**/", "x",
    ];
    let mut rng = Rng(2);
    let mut answered = 0;
    for _ in 0..100_000 {
        let text = rng.pieces(&pieces, 9).into_bytes();
        let mut wanted: Vec<u32> = vec![];
        let mut at = 0;
        while let Some((kind, end)) = rust_item(&text, at) {
            wanted.extend([kind, at as u32, end as u32]);
            at = end;
        }
        let count = wanted.len() / ITEM;
        let room = rng.below(count + 3);
        let mut table = vec![7; room * ITEM + rng.below(ITEM)];
        let before = table.clone();
        let answer = items(&text, &mut table);
        if at < text.len() {
            assert_eq!(answer, Err(Refusal::NoItem(at)), "{text:?}");
            assert_eq!(table, before);
        } else if room < count {
            assert_eq!(answer, Err(Refusal::NoRoomForItems(count)), "{text:?}");
            assert!(table.iter().all(|w| *w == 0));
        } else {
            answered += 1;
            wanted.resize(table.len(), 0);
            assert_eq!(answer, Ok(count), "{text:?}");
            assert_eq!(table, wanted, "{text:?}");
        }
    }
    assert!(answered > 10_000, "{answered}");
}

/// The line of each row is 1 plus the line feeds before its low.
fn check_lines(text: &[u8], rows: &[u32]) {
    for row in rows.chunks_exact(ROW) {
        let before = &text[..row[column::LOW] as usize];
        let feeds = before.iter().filter(|b| **b == b'\n').count();
        assert_eq!(row[column::LINE] as usize, 1 + feeds, "{text:?}");
    }
}

/// Top rows cover the text; the trivia before each is one run of items, and all of it is the first word of the text.
#[test]
fn walks() {
    let pieces = [
        "lda ", "nop", "#", "1", "(", ")", "{", "}", "a", ":", ".byte ", ".if ", " ", "\n",
        "/* a */", "//b\n", "\"", ",x", "=", "?",
    ];
    let mut rng = Rng(3);
    for _ in 0..20_000 {
        let text = rng.pieces(&pieces, 20).into_bytes();
        let mut rows = vec![7; enough::row_words(text.len())];
        let mut errors = vec![7; enough::error_words(text.len())];
        let mut requests = vec![7; enough::request_words(text.len())];
        let reading = read(
            &text,
            State::default(),
            MAX_LEVEL,
            &mut rows,
            &mut errors,
            &mut requests,
        )
        .unwrap();
        check_lines(&text, &rows[..reading.rows * ROW]);
        let (mut count, mut low, mut tops) = (reading.rows, text.len(), vec![]);
        while count > 0 {
            let subtree = walk(&rows, count).unwrap();
            let row = &rows[subtree.root * ROW..][..ROW];
            assert_eq!(
                (subtree.root, subtree.before),
                (count - 1, count - row[1] as usize)
            );
            assert_eq!(row[4] as usize, low, "{text:?}");
            let run = &text[row[2] as usize..row[3] as usize];
            let mut table = vec![7; enough::item_words(run.len())];
            assert!(items(run, &mut table).is_ok(), "{run:?}");
            (count, low) = (subtree.before, row[2] as usize);
            tops.insert(0, subtree.root);
        }
        assert_eq!(low, 0, "{text:?}");
        let roots = vec![7; rng.below(tops.len() + 3)];
        check_words(&text, &rows[..reading.rows * ROW], tops, roots);
    }
}

/// The words of a text and its top rows, in a table of roots that may be too small.
fn check_words(text: &[u8], rows: &[u32], mut tops: Vec<usize>, mut roots: Vec<usize>) {
    let answer = text_words(text, rows, rows.len() / ROW, &mut roots);
    if roots.len() < tops.len() {
        assert_eq!(answer, Err(Refusal::NoRoomForRows(tops.len())), "{text:?}");
        tops.clear();
    } else {
        let trivia = tops
            .iter()
            .map(|r| rows[r * ROW + column::LOW] - rows[r * ROW + column::TLOW]);
        let words = TextWords {
            trivia: trivia.sum(),
            length: text.len() as u32,
        };
        assert_eq!(answer, Ok(words), "{text:?}");
    }
    tops.resize(roots.len(), 0);
    assert_eq!(roots, tops, "{text:?}");
}

fn gcd(a: u128, b: u128) -> u128 {
    match b {
        0 => a,
        _ => gcd(b, a % b),
    }
}

/// Plain sums, their common divisor, and all texts sorted by cross products.
fn rust_shares(words: &[u32]) -> Result<Shares, Refusal> {
    let texts: Vec<(u128, u128)> = words
        .chunks_exact(TEXT)
        .map(|t| (t[0] as u128, t[1] as u128))
        .collect();
    if texts.len() > MAX_TEXTS {
        return Err(Refusal::TooManyTexts(texts.len()));
    }
    let wrong = |(trivia, length): &(u128, u128)| trivia > length || *length > MAX_TEXT as u128;
    if let Some(i) = texts.iter().position(wrong) {
        return Err(Refusal::WrongText(i));
    }
    let trivia: u128 = texts.iter().map(|t| t.0).sum();
    let length: u128 = texts.iter().map(|t| t.1).sum();
    let (numerator, denominator) = match gcd(trivia, length) {
        0 => (0, 1),
        d => ((trivia / d) as u64, (length / d) as u64),
    };
    let mut order: Vec<usize> = (0..texts.len()).collect();
    // A stable sort, so equal shares keep the order of their indexes.
    order.sort_by(|i, j| {
        let ((a, b), (c, d)) = (texts[*i], texts[*j]);
        (c * b.max(1)).cmp(&(a * d.max(1)))
    });
    let count = order.len().min(3);
    order.truncate(3);
    order.resize(3, 0);
    Ok(Shares {
        numerator,
        denominator,
        count,
        largest: [order[0], order[1], order[2]],
    })
}

#[test]
fn share_lists() {
    let mut rng = Rng(4);
    let (mut answered, mut wrong) = (0, 0);
    for turn in 0..20_000 {
        let texts = match turn % 200 {
            0 => 990 + rng.below(20),
            _ => rng.below(12),
        };
        let most = [3, 10, 1000, MAX_TEXT][rng.below(4)];
        // one text in so many is wrong
        let rare = [10, 5000][rng.below(2)];
        let mut words = vec![];
        for _ in 0..texts {
            let length = rng.below(most + 1);
            let trivia = rng.below(length + 1);
            words.extend(match rng.below(3 * rare) {
                0 => [(length + 1) as u32, length as u32],
                1 => [trivia as u32, (MAX_TEXT + 1 + rng.below(9)) as u32],
                2 => [
                    u32::MAX - rng.below(9) as u32,
                    u32::MAX - rng.below(9) as u32,
                ],
                _ => [trivia as u32, length as u32],
            });
        }
        if rng.below(4) == 0 {
            words.push(u32::MAX);
        }
        let wanted = rust_shares(&words);
        answered += wanted.is_ok() as usize;
        wrong += matches!(wanted, Err(Refusal::WrongText(_))) as usize;
        assert_eq!(shares(&words), wanted, "{words:?}");
    }
    assert!(answered > 10_000 && wrong > 1_000, "{answered}, {wrong}");
}
