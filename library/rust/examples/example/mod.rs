//! What the examples share: a text that they are called with, and its reading as a first text, in tables that are always enough.

use std::io::Read;
use std::path::Path;
use std::process::exit;
use vireopatch::{enough, read, Reading, Refusal, State, MAX_LEVEL, MAX_TEXT};

fn text(file: Option<impl AsRef<Path>>) -> std::io::Result<Vec<u8>> {
    match file {
        Some(name) => std::fs::read(name),
        None => {
            let mut text = vec![];
            std::io::stdin().read_to_end(&mut text)?;
            Ok(text)
        }
    }
}

/// Prints a refusal, and ends the program with status 1.
pub fn refused(refusal: Refusal) -> ! {
    let (number, given) = refusal.numbers();
    println!("refusal number\n{number} {given}");
    exit(1)
}

/// The text of a file, or of standard input if there is none; the tables of rows, errors and requests; the counts and the end state. Without
/// a text the program ends with status 2; where the text is refused it prints the refusal, says which text it is, and ends with status 1.
pub fn read_text(
    example: &str,
    file: Option<impl AsRef<Path>>,
) -> (Vec<u8>, [Vec<u32>; 3], Reading) {
    let place = match &file {
        Some(name) => name.as_ref().display().to_string(),
        None => "standard input".to_string(),
    };
    let text = text(file).unwrap_or_else(|e| {
        eprintln!("{example}: {place}: {e}");
        exit(2)
    });
    // A longer text is refused before anything is written.
    let n = if text.len() <= MAX_TEXT {
        text.len()
    } else {
        0
    };
    let mut rows = vec![0; enough::row_words(n)];
    let mut errors = vec![0; enough::error_words(n)];
    let mut requests = vec![0; enough::request_words(n)];
    match read(
        &text,
        State::default(),
        MAX_LEVEL,
        &mut rows,
        &mut errors,
        &mut requests,
    ) {
        Ok(reading) => (text, [rows, errors, requests], reading),
        Err(refusal) => {
            eprintln!("{example}: {place}: refused");
            refused(refusal)
        }
    }
}
