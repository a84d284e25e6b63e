//! The bytes and the lines of an entry as they stand in the list.

use crate::lines::HEADER;

/// Hex digits, two to a byte, with space between them wherever it helps the
/// eye. `( 05 0002 FFFF )*3` stands for three times what is in the brackets,
/// `( 06 0001 ## )#10-1F` for each of these bytes in the place of `##`.
/// The list is part of this program: a slip in it ends the program.
pub fn bytes(hex: &str) -> Vec<u8> {
    let mut out = Vec::new();
    let mut bracket = None;
    for word in hex.split_whitespace() {
        if word == "(" {
            bracket = Some(Vec::new());
        } else if let Some(closing) = word.strip_prefix(')') {
            out.extend(repeated(&bracket.take().expect("a bracket is open"), closing));
        } else if let Some(group) = &mut bracket {
            group.push(word);
        } else {
            push_digits(&mut out, word);
        }
    }
    assert!(bracket.is_none(), "a bracket is left open");
    out
}

/// What is in the brackets, as often as what follows them says.
fn repeated(group: &[&str], closing: &str) -> Vec<u8> {
    let group = group.join(" ");
    if let Some((first, last)) = closing.strip_prefix('#').and_then(|range| range.split_once('-')) {
        let each = bytes(first)[0]..=bytes(last)[0];
        return each.flat_map(|byte| bytes(&group.replace("##", &format!("{byte:02X}")))).collect();
    }
    let times = closing.strip_prefix('*').and_then(|times| times.parse().ok());
    bytes(&group).repeat(times.expect("a number of times"))
}

fn push_digits(out: &mut Vec<u8>, word: &str) {
    let pairs = word.as_bytes().chunks_exact(2);
    assert!(pairs.remainder().is_empty(), "half a byte in {word}");
    for pair in pairs {
        let digit = |c: u8| (c as char).to_digit(16).expect("a hex digit") as u8;
        out.push(digit(pair[0]) << 4 | digit(pair[1]));
    }
}

/// The header, and the lines that the slashes part.
pub fn lines(text: &str) -> String {
    String::from_utf8_lossy(HEADER).into_owned() + &plain(text)
}

/// The lines alone; `x *3` stands for three times x, and no text for no line.
pub fn plain(text: &str) -> String {
    let mut out = String::new();
    for line in text.split('/').map(str::trim).filter(|line| !line.is_empty()) {
        let (line, times) = line.split_once(" *").unwrap_or((line, "1"));
        out += &format!("{line}\n").repeat(times.parse().expect("a number of times"));
    }
    out
}

#[cfg(test)]
mod tests {
    use super::*;

    #[test]
    fn bytes_and_brackets() {
        assert_eq!(bytes(""), []);
        assert_eq!(bytes("01 0001 1F\n  07 0000"), [1, 0, 1, 0x1F, 7, 0, 0]);
        assert_eq!(bytes("00 ( A9 01 )*3 FF"), [0, 0xA9, 1, 0xA9, 1, 0xA9, 1, 0xFF]);
        assert_eq!(bytes("00 ( A9 ## )#FE-FF 01"), [0, 0xA9, 0xFE, 0xA9, 0xFF, 1]);
    }

    #[test]
    fn lines_and_slashes() {
        assert_eq!(lines("11 10 owns\n  / end 11"), "ebus bench\n11 10 owns\nend 11\n");
        assert_eq!(plain("a b *2\n / c"), "a b\na b\nc\n");
        assert_eq!(plain(""), "");
    }
}
