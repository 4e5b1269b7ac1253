//! Texts of decimal words (question 14) and printed lines.

use crate::network::Refusal;

pub const LONGEST_TEXT: usize = 24576;

/// "Is the text at most 24576 bytes of decimal words between spaces and line ends ...?" 14
pub fn read_words(text: &[u8]) -> Result<Vec<i32>, Refusal> {
    if text.len() > LONGEST_TEXT {
        return Err(Refusal(14));
    }
    let words = text.split(|byte| matches!(byte, 32 | 10 | 13)).filter(|word| !word.is_empty());
    words.map(read_word).collect::<Option<_>>().ok_or(Refusal(14))
}

/// "a minus sign or none, then digits, leading zeros allowed, with a value within signed 32 bits"
fn read_word(word: &[u8]) -> Option<i32> {
    let (sign, digits) = match word.strip_prefix(b"-") {
        Some(digits) => (-1, digits),
        None => (1, word),
    };
    if digits.is_empty() {
        return None;
    }
    let mut size: i64 = 0;
    for digit in digits {
        if !digit.is_ascii_digit() {
            return None;
        }
        size = 10 * size + (digit - b'0') as i64;
        if size > 2147483648 {
            return None;
        }
    }
    i32::try_from(sign * size).ok()
}

/// "Words on a line stand one space apart, and an empty array prints an empty line."
pub fn line(words: &[i32]) -> String {
    let words: Vec<String> = words.iter().map(|word| word.to_string()).collect();
    words.join(" ") + "\n"
}

#[cfg(test)]
mod tests {
    use super::*;

    #[test]
    fn words() {
        let good: [(&[u8], &[i32]); 7] = [
            (b"", &[]),
            (b" \n\r ", &[]),
            (b"1 2\r\n-3", &[1, 2, -3]),
            (b"-0 007 -000", &[0, 7, 0]),
            (b"2147483647 -2147483648", &[2147483647, -2147483648]),
            (b"00000000000000000000000000000001", &[1]),
            (b"5\n", &[5]),
        ];
        for (text, words) in good {
            assert_eq!(read_words(text), Ok(words.to_vec()));
        }
        let bad: [&[u8]; 14] = [
            b"-",
            b"--1",
            b"+1",
            b"1-1",
            b"1\t2",
            b"1\x002",
            b"\x0b",
            b"\x0c",
            b"\xff",
            b"1.0",
            b"2147483648",
            b"-2147483649",
            b"99999999999999999999999999999999",
            b"1 - 1",
        ];
        for text in bad {
            assert_eq!(read_words(text), Err(Refusal(14)));
        }
    }

    #[test]
    fn length() {
        assert_eq!(read_words(&[b' '; LONGEST_TEXT]), Ok(vec![]));
        assert_eq!(read_words(&[b' '; LONGEST_TEXT + 1]), Err(Refusal(14)));
        assert_eq!(read_words(&[b'0'; LONGEST_TEXT]), Ok(vec![0]));
    }
}
