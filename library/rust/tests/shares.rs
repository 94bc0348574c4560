//! The cases that the program share_test replays, by the library: lists of texts, and the two words of a text from its reading.

use vireopatch::{enough, read, shares, text_words, Shares, State, TextWords, MAX_LEVEL};

const CASES: &str = include_str!("../../../crates/share_test/stdin");

/// The fields of the lines of one kind, behind the kind: 0 for a list, 1 for a text. tools/make-share-cases says what they are.
fn cases(kind: u64) -> impl Iterator<Item = (&'static str, Vec<u64>)> {
    let lines = CASES.lines().filter(|line| !line.starts_with('#'));
    let all = lines.map(|line| (line, line.split(' ').map(|n| n.parse().unwrap())));
    all.filter_map(move |(line, mut fields)| {
        (fields.next() == Some(kind)).then(|| (line, fields.collect()))
    })
}

#[test]
fn lists() {
    let mut count = 0;
    for (line, fields) in cases(0) {
        let [refusal, given, numerator, denominator, present, first, second, third, len, runs @ ..] =
            &fields[..]
        else {
            panic!("{line}")
        };
        let mut words: Vec<u32> = vec![];
        for run in runs.chunks(3) {
            let [times, trivia, length] = run else {
                panic!("{line}")
            };
            for _ in 0..*times {
                words.extend([*trivia as u32, *length as u32]);
            }
        }
        assert!(*len as usize <= words.len(), "{line}");
        words.truncate(*len as usize);
        let expected = match refusal {
            0 => Ok(Shares {
                numerator: *numerator,
                denominator: *denominator,
                count: *present as usize,
                largest: [*first, *second, *third].map(|i| i as usize),
            }),
            _ => Err((*refusal as u32, *given as usize)),
        };
        assert_eq!(shares(&words).map_err(|r| r.numbers()), expected, "{line}");
        count += 1;
    }
    assert!(count > 200, "{count} lists");
}

#[test]
fn texts() {
    let mut count = 0;
    for (line, fields) in cases(1) {
        let [trivia, length, runs @ ..] = &fields[..] else {
            panic!("{line}")
        };
        let text: Vec<u8> = runs
            .chunks(2)
            .flat_map(|run| std::iter::repeat(run[1] as u8).take(run[0] as usize))
            .collect();
        let mut rows = vec![7; enough::row_words(text.len())];
        let mut errors = vec![7; enough::error_words(text.len())];
        let mut requests = vec![7; enough::request_words(text.len())];
        let start = State::default();
        let reading = read(
            &text,
            start,
            MAX_LEVEL,
            &mut rows,
            &mut errors,
            &mut requests,
        )
        .unwrap();
        let mut roots = vec![7; reading.rows];
        let expected = TextWords {
            trivia: *trivia as u32,
            length: *length as u32,
        };
        assert_eq!(
            text_words(&text, &rows, reading.rows, &mut roots),
            Ok(expected),
            "{line}"
        );
        count += 1;
    }
    assert!(count > 100, "{count} texts");
}
