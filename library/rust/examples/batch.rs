//! batch < CASES: reads many texts, as library/c/batch.c does, for `compare`.

use std::fmt::Write as _;
use std::io::{BufRead, Write as _};
use vireopatch::{enough, read, State, ERROR, MAX_LEVEL, MAX_TEXT, REQUEST, ROW};

fn put_records(out: &mut String, words: &[u32], count: usize, width: usize) {
    for record in words.chunks_exact(width).take(count) {
        for (i, word) in record.iter().enumerate() {
            let end = if i + 1 == width { '|' } else { ' ' };
            write!(out, "{word}{end}").unwrap();
        }
    }
}

/// The listing of a text, LF replaced by `|`; or `! ` and the refusal.
fn listing(text: &[u8], start: State) -> String {
    let n = if text.len() <= MAX_TEXT {
        text.len()
    } else {
        0
    };
    let mut rows = vec![1; enough::row_words(n)];
    let mut errors = vec![1; enough::error_words(n)];
    let mut requests = vec![1; enough::request_words(n)];
    let reading = match read(
        text,
        start,
        MAX_LEVEL,
        &mut rows,
        &mut errors,
        &mut requests,
    ) {
        Ok(reading) => reading,
        Err(refusal) => {
            let (number, given) = refusal.numbers();
            return format!("! {number} {given}");
        }
    };
    let mut out = String::from("kind size tlow low high detail line|");
    put_records(&mut out, &rows, reading.rows, ROW);
    out.push_str("error low high|");
    put_records(&mut out, &errors, reading.errors, ERROR);
    out.push_str("request low high|");
    put_records(&mut out, &requests, reading.requests, REQUEST);
    write!(
        out,
        "scope swallow|{} {}|",
        reading.end.scope, reading.end.swallow as u32
    )
    .unwrap();
    out
}

/// `HEX` or `SCOPE FLAG<tab>HEX`.
fn case(line: &str) -> Option<(State, Vec<u8>)> {
    let (state, hex) = line.split_once('\t').unwrap_or(("0 0", line));
    let (scope, flag) = state.split_once(' ')?;
    let start = State {
        scope: scope.parse().ok()?,
        swallow: flag == "1",
    };
    let byte = |i| u8::from_str_radix(hex.get(2 * i..2 * i + 2)?, 16).ok();
    let text: Option<Vec<u8>> = (0..hex.len() / 2).map(byte).collect();
    Some((start, text?))
}

fn main() {
    let mut out = std::io::BufWriter::new(std::io::stdout());
    for line in std::io::stdin().lock().lines() {
        let line = line.expect("a line");
        let (start, text) = case(&line).unwrap_or_else(|| panic!("no case: {line}"));
        writeln!(out, "{line}\t{}", listing(&text, start)).unwrap();
    }
}
