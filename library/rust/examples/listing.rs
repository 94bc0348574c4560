//! listing [FILE]: prints the reading of a file or of standard input. Status: 0 read, 1 refused, 2 no text.

mod example;

use vireopatch::{ERROR, REQUEST, ROW};

/// So many records of this width, a line each.
fn print_records(words: &[u32], count: usize, width: usize) {
    for record in words.chunks_exact(width).take(count) {
        let fields: Vec<String> = record.iter().map(u32::to_string).collect();
        println!("{}", fields.join(" "));
    }
}

fn main() {
    let (_, [rows, errors, requests], reading) =
        example::read_text("listing", std::env::args_os().nth(1));
    println!("kind size tlow low high detail line");
    print_records(&rows, reading.rows, ROW);
    println!("error low high");
    print_records(&errors, reading.errors, ERROR);
    println!("request low high");
    print_records(&requests, reading.requests, REQUEST);
    println!("scope swallow");
    println!("{} {}", reading.end.scope, reading.end.swallow as u32);
}
