//! Text read and written.
use crate::hierarchy::Hierarchy;

/// The lines of a file but comments and problem lines: the letter, and up to five numbers.
pub fn lines_of(path: &str) -> Vec<(u8, [u64; 5])> {
    let text = std::fs::read(path).unwrap_or_else(|fault| panic!("{path}: {fault}"));
    let lines = text.split(|&byte| byte == b'\n').filter(|line| !matches!(line.first(), None | Some(b'c' | b'p')));
    lines.map(|line| (line[0], numbers_of(&line[1..]))).collect()
}

fn numbers_of(line: &[u8]) -> [u64; 5] {
    let mut numbers = [0; 5];
    for (number, word) in numbers.iter_mut().zip(line.split(|&byte| byte == b' ').skip(1)) {
        *number = word.iter().fold(0, |value, digit| 10 * value + u64::from(digit - b'0'));
    }
    numbers
}

/// The nodes of each line of a file.
pub fn nodes_in<const N: usize>(path: &str, hierarchy: &Hierarchy) -> Vec<[u32; N]> {
    let nodes = |(_, numbers): (u8, [u64; 5])| std::array::from_fn(|place| hierarchy.inner[numbers[place] as usize - 1]);
    lines_of(path).into_iter().map(nodes).collect()
}

/// Appends a line: the letter, and the numbers, with a dash for none.
pub fn push_line(text: &mut Vec<u8>, letter: u8, numbers: impl IntoIterator<Item = Option<u64>>) {
    text.push(letter);
    for number in numbers {
        match number {
            Some(number) => push_number(text, number),
            None => text.extend_from_slice(b" -"),
        }
    }
    text.push(b'\n');
}

/// Appends a blank and a number. Two digits at a time make half as many long divisions.
fn push_number(text: &mut Vec<u8>, mut number: u64) {
    let (mut word, mut start) = ([b' '; 22], 22);
    while number > 9 {
        let pair = (number % 100) as u8;
        (number, start) = (number / 100, start - 2);
        (word[start], word[start + 1]) = (b'0' + pair / 10, b'0' + pair % 10);
    }
    if number > 0 || start == word.len() {
        start -= 1;
        word[start] = b'0' + number as u8;
    }
    text.extend_from_slice(&word[start - 1..]);
}

/// A node's number in files, where they have this one less one.
pub fn named(number: u32) -> Option<u64> {
    Some(u64::from(number) + 1)
}
