//! The values that the program number_test replays, by the library: each is a part in the middle of other bytes.

use vireopatch::{value, NumberType, Refusal};

const CASES: &str = include_str!("../../../crates/number_test/stdin");

struct Case {
    number_type: NumberType,
    part: std::ops::Range<usize>,
    expected: Result<u64, Refusal>,
    text: Vec<u8>,
}

/// tools/make-value-cases says what the fields are.
fn case(line: &str) -> Case {
    let fields: Vec<u64> = line.split(' ').map(|n| n.parse().unwrap()).collect();
    let [_, _, number_type, low, high, refusal, found, runs @ ..] = &fields[..] else {
        panic!("{line}")
    };
    Case {
        number_type: NumberType::from_detail(*number_type as u32).unwrap(),
        part: *low as usize..*high as usize,
        expected: match refusal {
            0 => Ok(*found),
            9 => Err(Refusal::ValueTooLarge),
            _ => Err(Refusal::NotANumber),
        },
        text: runs
            .chunks(2)
            .flat_map(|run| std::iter::repeat(run[1] as u8).take(run[0] as usize))
            .collect(),
    }
}

#[test]
fn between_other_bytes() {
    let mut count = 0;
    for line in CASES.lines().filter(|line| !line.starts_with('#')) {
        let case = case(line);
        for around in [b"111", b"xxx", b"000"] {
            let text = [&around[..], &case.text, around].concat();
            let part = case.part.start + 3..case.part.end + 3;
            assert_eq!(
                value(case.number_type, &text[part]),
                case.expected,
                "{line}"
            );
        }
        count += 1;
    }
    assert!(count > 600, "{count} cases");
}
