//! The outside vectors, file by file.

use std::fs;
use std::path::PathBuf;

/// After so many differences a file has made its point.
const SHOWN: usize = 5;

pub fn file(name: &str) -> Vec<u8> {
    let path: PathBuf = [env!("CARGO_MANIFEST_DIR"), "..", "vectors", name]
        .iter()
        .collect();
    fs::read(&path).unwrap_or_else(|error| panic!("vector file {}: {error}", path.display()))
}

/// The rows of a file. Too few rows fail: a file that was cut short answers nothing.
pub fn rows(name: &str, columns: usize, expected: usize) -> Vec<Vec<String>> {
    let text = String::from_utf8(file(name)).expect("vectors are plain text");
    let rows: Vec<Vec<String>> = text
        .lines()
        .map(|line| line.split('\t').map(str::to_owned).collect())
        .collect();
    assert!(
        rows.len() >= expected,
        "{name} has {} rows, {expected} are expected",
        rows.len()
    );
    for (row, line) in rows.iter().zip(1..) {
        assert_eq!(row.len(), columns, "{name}, line {line}: columns");
    }
    rows
}

pub fn bytes(hex: &str) -> Vec<u8> {
    assert!(
        hex.len().is_multiple_of(2),
        "an odd number of hexadecimal digits"
    );
    (0..hex.len() / 2)
        .map(|place| u8::from_str_radix(&hex[2 * place..2 * place + 2], 16).expect("hexadecimal"))
        .collect()
}

pub fn number<N: std::str::FromStr>(field: &str) -> N {
    field
        .parse()
        .unwrap_or_else(|_| panic!("not a number: {field}"))
}

/// Checks each row and fails with the first few differences.
pub fn check(name: &str, rows: &[Vec<String>], judge: impl Fn(&[String]) -> Result<(), String>) {
    let wrong: Vec<String> = rows
        .iter()
        .zip(1..)
        .filter_map(|(row, line)| {
            let difference = judge(row).err()?;
            Some(format!("{name}, line {line}: {difference}"))
        })
        .collect();
    assert!(
        wrong.is_empty(),
        "{} of {} rows differ; the first:\n{}",
        wrong.len(),
        rows.len(),
        wrong[..wrong.len().min(SHOWN)].join("\n")
    );
}

pub fn same<T: PartialEq + std::fmt::Debug>(what: &str, got: T, expected: T) -> Result<(), String> {
    if got == expected {
        Ok(())
    } else {
        Err(format!("{what} is {got:?}, the vector has {expected:?}"))
    }
}

/// Bytes differ at a place, which says more than two long strings.
pub fn same_bytes(what: &str, got: &[u8], expected: &[u8]) -> Result<(), String> {
    same(&format!("length of {what}"), got.len(), expected.len())?;
    match (0..got.len()).find(|&place| got[place] != expected[place]) {
        None => Ok(()),
        Some(place) => same(
            &format!("byte {place} of {what}"),
            got[place],
            expected[place],
        ),
    }
}
