//! numbers [FILE]: prints the numbers of a file or of standard input, a line for each top row, first to last: values, and refusals with their
//! places. Status: 0 read, 1 refused, 2 no text.

mod example;

use vireopatch::{column, kind, value, walk, NumberType, ROW};

/// The rows of a number are its type, its digits and itself, one behind the other. The digits are not copied: they are a part of the text.
fn print_number(text: &[u8], rows: &[&[u32]], number: usize) {
    let digits = rows[number - 1];
    let (low, high) = (digits[column::LOW] as usize, digits[column::HIGH] as usize);
    let number_type = NumberType::from_detail(rows[number - 2][column::DETAIL]).unwrap();
    match value(number_type, &text[low..high]) {
        Ok(value) => print!(" {value}"),
        Err(refusal) => print!(" refused {} at {low}..{high}", refusal.numbers().0),
    }
}

fn main() {
    let (text, [words, ..], reading) = example::read_text("numbers", std::env::args_os().nth(1));
    let rows: Vec<&[u32]> = words.chunks_exact(ROW).collect();
    // The top rows are found from the last to the first.
    let mut tops = vec![];
    let mut count = reading.rows;
    while let Ok(top) = walk(&words, count) {
        tops.push(top);
        count = top.before;
    }
    for (i, top) in tops.iter().rev().enumerate() {
        print!("row {}:", i + 1);
        for row in (top.before..=top.root).filter(|row| rows[*row][column::KIND] == kind::NUMBER) {
            print_number(&text, &rows, row);
        }
        println!();
    }
}
