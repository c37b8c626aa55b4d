//! Fields and numbers, which plan text, event text and printed lines have in common ("The plan text").

/// The fields of one line, or nothing when the line has no line feed at its end.
///
/// Only the last line feed is taken off: one inside the line stays in a field, where no name and no number allows it.
pub fn fields(line: &[u8]) -> Option<impl Iterator<Item = &[u8]>> {
    Some(line.strip_suffix(b"\n")?.split(|&byte| byte == b'\t'))
}

/// A number: one to five digits, and a zero in front only when it is the whole number.
pub fn number(field: &[u8]) -> Option<u32> {
    let length_fits = (1..=5).contains(&field.len());
    let leading_zero = field.len() > 1 && field[0] == b'0';
    if !length_fits || leading_zero || !field.iter().all(u8::is_ascii_digit) {
        return None;
    }
    Some(
        field
            .iter()
            .fold(0, |sum, digit| sum * 10 + u32::from(digit - b'0')),
    )
}

/// Exactly `N` numbers, and no field after them.
pub fn numbers<'a, const N: usize>(mut fields: impl Iterator<Item = &'a [u8]>) -> Option<[u32; N]> {
    let mut found = [0; N];
    for place in &mut found {
        *place = number(fields.next()?)?;
    }
    fields.next().is_none().then_some(found)
}

/// Appends a number in decimal, without a leading zero.
pub fn push_number(out: &mut Vec<u8>, number: u64) {
    if number >= 10 {
        push_number(out, number / 10);
    }
    out.push(b'0' + (number % 10) as u8);
}
