//! Messages and lines with faults.

use crate::random::Random;
use crate::sample::count_place;

/// Leaves the message, cuts or lengthens it, damages one byte or alters its count byte.
pub fn alter(random: &mut Random, bytes: &mut Vec<u8>) {
    let last = bytes.len() - 1;
    match random.within(0..=7) {
        0 => bytes.truncate(random.within(0..=last)),
        1 => bytes.extend(random.bytes_within(1..=20)),
        2 => bytes[random.within(0..=last)] = random.byte(),
        3 => {
            let place = count_place(bytes[0]);
            if let Some(count) = place.and_then(|place| bytes.get_mut(place)) {
                *count = random.within(0..=70) as u8;
            }
        }
        _ => {}
    }
}

/// In a fifth of the cases makes letters of a line capitals: all of them, or some.
pub fn capitals(random: &mut Random, line: &mut [u8]) {
    let all = match random.within(0..=9) {
        0 => true,
        1 => false,
        _ => return,
    };
    for character in line {
        if matches!(character, b'a'..=b'f') && (all || random.within(0..=1) == 0) {
            character.make_ascii_uppercase();
        }
    }
}

/// Puts a wrong character in one place, if the line has any.
pub fn damage(random: &mut Random, line: &mut [u8]) {
    if let Some(last) = line.len().checked_sub(1) {
        line[random.within(0..=last)] = wrong_character(random);
    }
}

/// A character that is no digit, often the neighbour of one, save for a few digits among the
/// entirely random ones.
fn wrong_character(random: &mut Random) -> u8 {
    match random.within(0..=3) {
        0 => random.pick(b"/:@G`g"),
        1 => random.pick(b"zZ \t\r\n\0\x7f"),
        2 => random.byte() | 0x80,
        _ => random.byte(),
    }
}

#[cfg(test)]
mod tests {
    use super::*;

    #[test]
    fn a_fifth_of_the_lines_has_capitals_mixed_or_not() {
        let mut random = Random::new(0);
        let [mut all, mut mixed] = [0; 2];
        for _ in 0..10_000 {
            let mut line = *b"0123456789abcdef";
            capitals(&mut random, &mut line);
            assert_eq!(line.to_ascii_lowercase(), b"0123456789abcdef");
            match &line {
                b"0123456789abcdef" => {}
                b"0123456789ABCDEF" => all += 1,
                _ => mixed += 1,
            }
        }
        assert!((900..1_100).contains(&all), "{all}");
        assert!((900..1_100).contains(&mixed), "{mixed}");
    }

    #[test]
    fn the_neighbours_of_the_digits_are_among_the_wrong_characters() {
        let mut random = Random::new(1);
        let wrong: Vec<_> = (0..1_000).map(|_| wrong_character(&mut random)).collect();
        for neighbour in b"/:@G`g" {
            assert!(wrong.contains(neighbour), "{neighbour}");
        }
    }
}
