//! Damage to texts and to blocks and images.

use super::random::Random;

/// Any damage to the bytes of a text: bytes changed, put in, taken out, lines moved or doubled, the end cut off.
pub fn damage_text(random: &mut Random, text: &mut Vec<u8>) {
    let place = random.below(text.len() + 1);
    match random.below(7) {
        0 => text.insert(place, random.next() as u8),
        1 => text.insert(place, random.pick(b"\t\n 0123456789STRULG-").unwrap()),
        2 if place < text.len() => {
            text.remove(place);
        }
        3 if place < text.len() => text[place] = random.pick(b"\t\n0159STRULG").unwrap(),
        4 if random.percent(20) => text.truncate(place),
        _ => move_line(random, text),
    }
}

/// Takes a line out, or leaves it, and puts it in elsewhere.
fn move_line(random: &mut Random, text: &mut Vec<u8>) {
    let mut lines: Vec<Vec<u8>> = text
        .split_inclusive(|&byte| byte == b'\n')
        .map(<[u8]>::to_vec)
        .collect();
    if lines.is_empty() {
        return;
    }
    let from = random.below(lines.len());
    let line = if random.percent(50) {
        lines.remove(from)
    } else {
        lines[from].clone()
    };
    let to = random.below(lines.len() + 1);
    lines.insert(to, line);
    *text = lines.concat();
}

pub fn damage_in_place(random: &mut Random, bytes: &mut [u8]) {
    let place = random.below(bytes.len());
    damage_byte(random, &mut bytes[place]);
}

pub fn damage_byte(random: &mut Random, byte: &mut u8) {
    *byte = match random.below(5) {
        0 => byte.wrapping_add(1),
        1 => byte.wrapping_sub(1),
        2 => random.pick(&[0, 1, 2, 3, 4, 5, 255]).unwrap(),
        _ => random.next() as u8,
    };
}
