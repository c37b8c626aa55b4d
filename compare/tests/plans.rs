//! Plan texts: the proved reader and admission test beside the second program, every byte lent and every number.

#[path = "../../second/tests/support/mod.rs"]
mod support;

use second::host::{c_margin, c_read};
use std::collections::BTreeSet;
use support::damage::damage_text;
use support::plans::plan;
use support::random::{each_case, Random};
use support::vectors::{bytes, check, number, rows, same, same_bytes};

/// What a buffer holds before the call, so that a byte that was not to be written shows.
const BEFORE: u8 = 0xa5;

/// Both on one text, with a block of the given length; the number and the one beside it.
fn both_read(text: &[u8], length: usize) -> (u32, u32) {
    let (mut block, mut beside) = (vec![BEFORE; length], 77);
    let number = compare::read(text, &mut block, &mut beside);
    let (mut expected_block, mut expected_beside) = (vec![BEFORE; length], 77);
    let expected = c_read(text, &mut expected_block, &mut expected_beside);
    let shown = || String::from_utf8_lossy(text).into_owned();
    assert_eq!(number, expected, "number of\n{}", shown());
    assert_eq!(beside, expected_beside, "number beside, of\n{}", shown());
    assert_eq!(block, expected_block, "block of\n{}", shown());
    (number, beside)
}

fn both_margin(text: &[u8], row: u32) -> (u32, i64) {
    let (mut margin, mut expected_margin) = (77, 77);
    let number = compare::margin(text, row, &mut margin);
    let expected = c_margin(text, row, &mut expected_margin);
    let shown = || String::from_utf8_lossy(text).into_owned();
    assert_eq!(
        (number, margin),
        (expected, expected_margin),
        "margin of row {row} of\n{}",
        shown()
    );
    (number, margin)
}

#[test]
fn read_vectors() {
    check("read.tsv", &rows("read.tsv", 4, 552), |row| {
        let (mut block, mut beside) = (vec![BEFORE; 1108], 77);
        let got = compare::read(&bytes(&row[0]), &mut block, &mut beside);
        same("number", got, number(&row[1]))?;
        same("number beside", beside, number(&row[2]))?;
        let expected = if row[3] == "-" {
            vec![BEFORE; 1108]
        } else {
            bytes(&row[3])
        };
        same_bytes("block", &block, &expected)
    });
}

#[test]
fn margin_vectors() {
    check("margin.tsv", &rows("margin.tsv", 4, 840), |row| {
        let mut margin = 77;
        let got = compare::margin(&bytes(&row[0]), number(&row[1]), &mut margin);
        same("number", got, number(&row[2]))?;
        same("margin", margin, number(&row[3]))
    });
}

/// A text that is accepted, damaged a little, or hardly a plan at all.
fn any_text(random: &mut Random) -> Vec<u8> {
    let mut text = plan(random).0.text().into_bytes();
    match random.below(20) {
        0 => text = text.repeat(16_400 / text.len() + 1),
        1 => text.truncate(random.below(text.len() + 1)),
        2 => text = (0..random.below(40)).map(|_| random.next() as u8).collect(),
        3 => {
            // Around the limit of length, to the byte.
            text = text.repeat(16_400 / text.len() + 1);
            text.truncate(16_380 + random.below(10));
        }
        4 => text.clear(),
        5..=8 => {}
        _ => {
            for _ in 0..random.within(1..=3) {
                damage_text(random, &mut text);
            }
        }
    }
    text
}

#[test]
fn any_texts_are_read_alike() {
    let mut numbers = BTreeSet::new();
    each_case(20_000, |random| {
        let text = any_text(random);
        let length = match random.below(40) {
            0 => random.below(1300),
            1 => 1107 + 2 * random.below(2),
            _ => 1108,
        };
        numbers.insert(both_read(&text, length).0);
    });
    let expected: BTreeSet<u32> = [0, 34].into_iter().chain(20..=30).collect();
    assert_eq!(numbers, expected, "every number turns up");
}

#[test]
fn any_margins_are_alike() {
    let mut numbers = BTreeSet::new();
    let mut signs = BTreeSet::new();
    each_case(20_000, |random| {
        let text = any_text(random);
        let row = match random.below(8) {
            0 => random.next() as u32,
            _ => random.below(9) as u32,
        };
        let (number, margin) = both_margin(&text, row);
        numbers.insert(number);
        if number == 0 {
            signs.insert(margin.signum());
        }
    });
    let expected: BTreeSet<u32> = [0].into_iter().chain(20..=29).collect();
    assert_eq!(numbers, expected, "every number but 30 turns up");
    assert_eq!(signs, BTreeSet::from([-1, 0, 1]), "margins of every sign");
}

/// Periods and budgets at their limits, eight rows: the largest demands there are.
#[test]
fn the_largest_numbers_do_not_wrap() {
    for (period, budget) in [(10_000, 10_000), (1, 1), (10_000, 1), (9_999, 9_999)] {
        let mut text = String::from("S\t1\t1\n");
        for _ in 1..8 {
            text += &format!("S\t{period}\t{budget}\n");
        }
        text += "T\t7\nR\tG\n";
        text += &format!("U\t0\t0\t{budget}\n");
        for row in 0..9 {
            both_margin(text.as_bytes(), row);
        }
        both_read(text.as_bytes(), 1108);
    }
}
