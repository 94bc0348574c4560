//! shares FILE..: prints how much of some files is trivia, and then the files with the largest shares, up to three: index, name, trivia bytes and
//! length. Status: 0 read, 1 refused, 2 no text.

mod example;

use std::path::PathBuf;
use vireopatch::{shares, text_words};

fn main() {
    let files: Vec<PathBuf> = std::env::args_os().skip(1).map(PathBuf::from).collect();
    let mut texts = vec![];
    for file in &files {
        let (text, [rows, ..], reading) = example::read_text("shares", Some(file));
        // The top rows are some of the rows, so there is room for them.
        let mut roots = vec![0; reading.rows];
        let words = text_words(&text, &rows, reading.rows, &mut roots);
        texts.push(words.unwrap_or_else(|refusal| {
            eprintln!("shares: {}: refused", file.display());
            example::refused(refusal)
        }));
    }
    let words: Vec<u32> = texts.iter().flat_map(|t| [t.trivia, t.length]).collect();
    let found = shares(&words).unwrap_or_else(|refusal| example::refused(refusal));
    println!("{} / {}", found.numerator, found.denominator);
    for i in found.indexes() {
        let (name, text) = (files[*i].display(), texts[*i]);
        println!("{i} {name} {} {}", text.trivia, text.length);
    }
}
