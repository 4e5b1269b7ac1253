//! Deterministic sample texts: records whole or damaged, written plainly or oddly.

use crate::draw::Draw;
use crate::network::{figure_count, record_length, sizes, ARC_FIGURES};
use crate::samples::{network, small, wide, Shape};
use crate::text::LONGEST_TEXT;

/// Words that make no fraction in form, or marks.
pub fn improper_figure(draw: &mut Draw) -> (i32, i32) {
    draw.of(&[
        (2, 4),
        (0, 2),
        (0, 0),
        (0, -1),
        (1, -1),
        (-3, -2),
        (1, 0),
        (-1, 0),
        (2, 0),
        (-2147483648, 1),
        (-2147483648, 0),
        (1, -2147483648),
        (2147483646, 2147483646),
    ])
}

/// A figure that may be in form, and may be a mark.
fn any_figure(draw: &mut Draw) -> (i32, i32) {
    match draw.below(4) {
        0 => small(draw).words(),
        1 => wide(draw).words(),
        _ => improper_figure(draw),
    }
}

/// Puts a figure into a record's words; `position` counts the figures from 0.
pub fn put(words: &mut [i32], position: usize, figure: (i32, i32)) {
    let count = (words.len() - 2) / 2;
    if position < count {
        words[2 + position] = figure.0;
        words[2 + count + position] = figure.1;
    }
}

/// Changes a network's constant, which is its first figure: mostly to a mark or to no fraction in form.
fn damage_constant(draw: &mut Draw, words: &mut [i32]) {
    let figure = any_figure(draw);
    put(words, 0, figure)
}

/// Takes the constant out of a network's record: what is left is as records were before there was one.
pub fn drop_constant(words: &mut Vec<i32>) {
    if words.len() >= record_length(0, 0) {
        words.remove(1 + words.len() / 2);
        words.remove(2);
    }
}

/// Damages a network's record in one place. The record must have the right length.
fn damage_figure(draw: &mut Draw, words: &mut [i32], n: usize, m: usize) {
    if draw.chance(10) {
        return damage_constant(draw, words);
    }
    if m == 0 || draw.chance(25) {
        let position = draw.below(figure_count(n, m));
        let figure = any_figure(draw);
        return put(words, position, figure);
    }
    let first = figure_count(n, draw.below(m));
    let n = n as i32;
    match draw.below(10) {
        0 => put(words, first + 3, (1, 0)),
        1 => put(words, first + 4, (-1, 0)),
        2 => {
            let position = first + draw.of(&[0, 1, 2, 5, 6]);
            let mark = draw.of(&[(1, 0), (-1, 0)]);
            put(words, position, mark)
        }
        3 | 4 => {
            let position = first + draw.below(2);
            let end = draw.of(&[(0, 1), (n + 1, 1), (-1, 1), (3, 2), (1, 2), (2147483647, 1), (33, 1)]);
            put(words, position, end)
        }
        5 => put(words, first + 5, (0, 1)),
        6 => put(words, first + 6, (0, 1)),
        7 => {
            let figure = small(draw).words();
            put(words, first + 6, figure)
        }
        8 => {
            let position = first + draw.below(2);
            let node = draw.within(1, n.max(1) as i64) as i32;
            put(words, position, (node, 1))
        }
        _ => {
            let position = first + draw.below(ARC_FIGURES);
            let figure = any_figure(draw);
            put(words, position, figure)
        }
    }
}

/// Damages one figure of a network's record, if its sizes and length still tell where.
pub fn damage_network(draw: &mut Draw, words: &mut [i32]) {
    if let Some((n, m)) = sizes(words) {
        if words.len() == record_length(n, m) {
            damage_figure(draw, words, n, m);
        }
    }
}

pub fn damage_length(draw: &mut Draw, words: &mut Vec<i32>) {
    match draw.below(6) {
        0 => {
            words.pop();
        }
        1 => words.push(draw.within(0, 1) as i32),
        2 => words.truncate(draw.below(words.len() + 1)),
        3 => words[0] = words[0].wrapping_add(draw.sign() as i32),
        4 => drop_constant(words),
        _ => words[1] = words[1].wrapping_add(draw.sign() as i32),
    }
}

/// A network's record damaged in one to three places.
pub fn damaged_record(draw: &mut Draw) -> Vec<i32> {
    let sample = network(draw, Shape::Small);
    let (n, m) = (sample.supplies.len(), sample.arcs.len());
    let mut words = sample.record().words();
    for _ in 0..draw.of(&[1, 1, 1, 2, 3]) {
        damage_figure(draw, &mut words, n, m);
    }
    if draw.chance(20) {
        damage_length(draw, &mut words);
    }
    words
}

/// Records with sizes at and past the limits, some of the length that the sizes ask for.
pub fn limit_record(draw: &mut Draw) -> Vec<i32> {
    let n = draw.of(&[0, 1, 31, 32, 32, 33, 34, -1, 2147483647, -2147483648, 2]);
    let m = draw.of(&[0, 1, 2, 95, 96, 96, 97, 98, -1, 2147483647, -2147483648]);
    let mut words = vec![n, m];
    if (0..=34).contains(&n) && (0..=98).contains(&m) {
        let mut figures = vec![(draw.of(&[0, 0, 1, 2147483647, -2147483647]), 1)];
        figures.extend((0..n).map(|_| (0, 1)));
        for _ in 0..m {
            let from = draw.within(1, n.max(1) as i64) as i32;
            let to = draw.within(1, n.max(1) as i64) as i32;
            let flow = draw.within(0, 1) as i32;
            let b = (from != to) as i32;
            figures.extend([(from, 1), (to, 1), (1, 1), (flow, 1), (flow, 1), (1, 1), (b, 1)]);
        }
        words.extend(figures.iter().map(|figure| figure.0));
        words.extend(figures.iter().map(|figure| figure.1));
    }
    if draw.chance(15) {
        words.pop();
    }
    words
}

/// A word as it may be written: leading zeros, a minus sign before zero.
fn spelling(draw: &mut Draw, word: i32, odd: bool) -> String {
    if !odd || draw.chance(80) {
        return word.to_string();
    }
    let zeros = "0".repeat(draw.below(4));
    let sign = if word < 0 || (word == 0 && draw.chance(50)) { "-" } else { "" };
    format!("{sign}{zeros}{}", (word as i64).abs())
}

/// The words as a text, plainly or with odd separators and spellings.
pub fn text_of(draw: &mut Draw, words: &[i32]) -> Vec<u8> {
    let odd = draw.chance(25);
    let separators: &[&str] =
        if odd { &[" ", "  ", "\n", "\r\n", "\r", "\n\n ", " \r\n"] } else { draw.of(&[&[" "], &["\n"], &["\r\n"]]) };
    let mut text = String::new();
    if odd && draw.chance(30) {
        text += draw.of(separators);
    }
    for (position, word) in words.iter().enumerate() {
        if position > 0 {
            text += draw.of(separators);
        }
        text += &spelling(draw, *word, odd);
    }
    if draw.chance(60) {
        text += draw.of(&["\n", "\r\n", " ", "\n"]);
    }
    text.into_bytes()
}

/// Fixed odd texts.
const ODD_TEXTS: [&[u8]; 60] = [
    b"",
    b" ",
    b"\n",
    b"\r\n",
    b" \n\r \n",
    b"0",
    b"0 0",
    b"0 0 0",
    b"0 0 0 1",
    b"0 0 0 1\n",
    b"0 0 0 1\r\n",
    b"\r\n0\r\n0\r\n0\r\n1\r\n",
    b"-0 -0 -0 1",
    b"-000 0000 000 01",
    b"00000000000000000000000000000000000000000000 0 0 1",
    b"0 0 2147483647 2147483646",
    b"0 0 1 0",
    b"0 0 -1 0",
    b"0 0 2 4",
    b"0 0 0 2",
    b"0 0 1 -1",
    b"0 0 -2147483648 1",
    b"-",
    b"- 0 0 1",
    b"0 0 0 1 -",
    b"--1",
    b"0 --0 0 1",
    b"+1",
    b"+0 +0 0 1",
    b"0 1-1 0 1",
    b"0\t0 0 1",
    b"0 0 0 1\t",
    b"0 0 0 1\0",
    b"\0",
    b"0\x0b0 0 1",
    b"0\x0c0 0 1",
    b"0 0 0 1\x0b",
    b"0 0 0 1\x1a",
    b"\xef\xbb\xbf0 0 0 1",
    b"0 0 0 1\xa0",
    b"0 0 0 1 \xff",
    b"0 0 \xd9\xa0 1",
    b"2147483647 0",
    b"2147483648 0",
    b"0 2147483648",
    b"-2147483648 0",
    b"-2147483649 0",
    b"4294967296 0",
    b"0 4294967296",
    b"18446744073709551616 0",
    b"99999999999999999999999999999999999999999999999999 0",
    b"0 00000000000000000000000000002147483648",
    b"1 0 0 1",
    b"1 0 0 0 1 1",
    b"1 0 -0 -0 001 1",
    b"1 0 0 -1 1 1",
    b"0 0 0 1 0",
    b"1.0 0 0 1",
    b"0x0 0 0 1",
    b"0,0 0 1",
];

/// A text filled up or overfilled around the longest length.
fn longest_text(draw: &mut Draw, words: &[i32]) -> Vec<u8> {
    let length = LONGEST_TEXT + draw.of(&[0, 0, 0, 1, 1, 2, 4096]) - draw.of(&[0, 0, 0, 1]);
    let mut text = text_of(draw, words);
    let missing = length.saturating_sub(text.len());
    let first_word = text.iter().position(|byte| byte.is_ascii_digit() || *byte == b'-');
    match (draw.below(5), first_word) {
        (0, Some(first)) => {
            let digit = first + (text[first] == b'-') as usize;
            text.splice(digit..digit, vec![b'0'; missing]);
        }
        (1, _) => {
            let mut padded = vec![b' '; missing];
            padded.extend(&text);
            text = padded;
        }
        (2, _) => text.extend(vec![b'\n'; missing]),
        (3, _) if missing > 1 => {
            text.push(b' ');
            text.extend(vec![b'0'; missing - 1]);
        }
        _ => {
            text.extend(vec![b' '; missing.saturating_sub(1)]);
            if missing > 0 {
                text.push(draw.of(b"1 \n-x"));
            }
        }
    }
    text
}

/// A good text with one byte changed, put in or taken out, or something bad behind it.
fn spoilt_text(draw: &mut Draw, words: &[i32]) -> Vec<u8> {
    let mut text = text_of(draw, words);
    let bad: [&[u8]; 16] = [
        b"-",
        b"+",
        b"\t",
        b"\0",
        b"\x0b",
        b"\x0c",
        b"\xff",
        b"\x80",
        b".",
        b"x",
        b"9999999999",
        b" - ",
        b"--",
        b",",
        b"\x7f",
        b"1",
    ];
    let piece = draw.of(&bad);
    let position = draw.below(text.len() + 1);
    match draw.below(4) {
        0 => {
            text.splice(position..position, piece.iter().copied());
        }
        1 if position < text.len() => {
            text.splice(position..position + 1, piece.iter().copied());
        }
        2 => {
            text.push(b' ');
            text.extend(piece);
        }
        _ => text.truncate(position),
    }
    text
}

/// The n-th odd text: the fixed ones first, then made ones. Any record's words may be the good part.
pub fn odd_text(draw: &mut Draw, number: usize, words: &[i32]) -> Vec<u8> {
    if let Some(text) = ODD_TEXTS.get(number) {
        text.to_vec()
    } else if draw.chance(40) {
        longest_text(draw, words)
    } else {
        spoilt_text(draw, words)
    }
}

/// After so many sample texts their kinds come again.
pub const KINDS: usize = 22;

/// The n-th text for the reducing program.
pub fn reducing_text(draw: &mut Draw, number: usize) -> Vec<u8> {
    let words = match number % KINDS {
        0 => {
            let words = network(draw, Shape::Small).record().words();
            return odd_text(draw, number / KINDS, &words);
        }
        1 => limit_record(draw),
        2 | 3 => damaged_record(draw),
        which => network(draw, shape(which)).record().words(),
    };
    text_of(draw, &words)
}

/// The shape of the texts whose number leaves this rest by `KINDS`.
pub fn shape(which: usize) -> Shape {
    match which {
        4 => Shape::Full,
        5 => Shape::LongRun,
        6 | 7 => Shape::Wide,
        8..=10 => Shape::Family,
        11 => Shape::HeavyCrossing,
        12 => Shape::SteepChain,
        13 => Shape::SteepCostly,
        20 | 21 => Shape::Doubled,
        _ => Shape::Small,
    }
}
