//! Texts damaged byte by byte and line by line, and texts that reach over the end of what is read.

use super::random::Random;
use crate::report::MOST_BYTES;

pub fn damage(random: &mut Random, text: &mut Vec<u8>) {
    for _ in 0..=random.below(4) {
        match random.below(9) {
            0 => flip(random, text),
            1 => remove(random, text),
            2 => insert(random, text),
            3 => swap_lines(random, text),
            4 => cut(random, text),
            5 => {
                text.pop();
            }
            6 => lengthen_line(random, text),
            7 => carriage_return(random, text),
            _ => replace_digit(random, text),
        }
    }
}

/// A position in the text, often in its first lines.
fn position(random: &mut Random, text: &[u8]) -> usize {
    let whole = random.below(text.len());
    if random.once_in(5) {
        return random.below(text.len().min(100));
    }
    whole
}

fn odd_byte(random: &mut Random) -> u8 {
    let known = [0, 9, 10, 13, 32, 44, 45, 47, 48, 58, 61, 127, 128, 255];
    if random.once_in(2) {
        return random.pick(&known);
    }
    random.below(256) as u8
}

fn flip(random: &mut Random, text: &mut [u8]) {
    let at = position(random, text);
    let bit = random.below(8);
    if let Some(byte) = text.get_mut(at) {
        *byte ^= 1 << bit;
    }
}

fn remove(random: &mut Random, text: &mut Vec<u8>) {
    let at = position(random, text);
    let length = if random.once_in(3) { random.below(30) } else { 1 };
    let end = text.len().min(at + length);
    text.drain(at..end);
}

fn insert(random: &mut Random, text: &mut Vec<u8>) {
    let at = position(random, text);
    let byte = odd_byte(random);
    text.insert(at, byte);
}

fn swap_lines(random: &mut Random, text: &mut Vec<u8>) {
    let mut lines: Vec<Vec<u8>> = text.split_inclusive(|&byte| byte == b'\n').map(<[u8]>::to_vec).collect();
    if lines.is_empty() {
        return;
    }
    let one = random.below(lines.len());
    let two = if random.once_in(2) { random.below(lines.len()) } else { (one + 1) % lines.len() };
    lines.swap(one, two);
    *text = lines.concat();
}

fn cut(random: &mut Random, text: &mut Vec<u8>) {
    let at = random.below(text.len() + 1);
    if random.once_in(3) {
        text.truncate(at);
    }
}

/// Fills some line up to 64 or 65 bytes, or more.
fn lengthen_line(random: &mut Random, text: &mut Vec<u8>) {
    let at = position(random, text);
    let start = text[..at].iter().rposition(|&byte| byte == b'\n').map_or(0, |feed| feed + 1);
    let end = text[start..].iter().position(|&byte| byte == b'\n').map_or(text.len(), |feed| start + feed);
    let wanted = random.pick(&[64, 65, 66, 200]);
    let filler = random.pick(&[b'0', b',', b' ', 0, 255]);
    let missing = usize::saturating_sub(wanted, end - start);
    text.splice(end..end, std::iter::repeat(filler).take(missing));
}

/// A carriage return before some line feed, or before all.
fn carriage_return(random: &mut Random, text: &mut Vec<u8>) {
    let all = random.once_in(4);
    let feeds: Vec<usize> = (0..text.len()).filter(|&at| text[at] == b'\n').collect();
    let chosen = if all { feeds } else { random.some_of(&feeds, 1) };
    for at in chosen.into_iter().rev() {
        text.insert(at, b'\r');
    }
}

/// Another number in the place of a digit.
fn replace_digit(random: &mut Random, text: &mut Vec<u8>) {
    let digits: Vec<usize> = (0..text.len()).filter(|&at| text[at].is_ascii_digit()).collect();
    let numbers: [&[u8]; 12] =
        [b"0", b"00", b"01", b"1", b"2", b"3", b"16", b"64", b"65535", b"65536", b"99999", b"4294967296"];
    let number = random.pick(&numbers);
    for at in random.some_of(&digits, 1) {
        text.splice(at..=at, number.iter().copied());
    }
}

/// Fills up with lines that cannot be read so that one of them ends near the last byte that is read, and
/// puts `more` after it.
pub fn fill_to_end(random: &mut Random, text: &mut Vec<u8>, more: &[u8]) {
    let end = MOST_BYTES - 3 + random.below(6);
    let width = random.pick(&[5, 17, 60, 63, 64, 65, 66]);
    while text.len() < end {
        let room = end - text.len();
        let length = if room > width + 1 { width } else { room - 1 };
        text.extend(std::iter::repeat(b'x').take(length));
        text.push(b'\n');
    }
    text.extend_from_slice(more);
}
