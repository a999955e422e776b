//! Bytes as two-digit capital hex parted by single spaces.

const DIGITS: &[u8; 16] = b"0123456789ABCDEF";

/// Appends the bytes' hex to a line of bytes.
pub fn push(line: &mut Vec<u8>, bytes: &[u8]) {
    for (i, byte) in bytes.iter().enumerate() {
        if i > 0 {
            line.push(b' ');
        }
        line.push(DIGITS[usize::from(byte >> 4)]);
        line.push(DIGITS[usize::from(byte & 15)]);
    }
}

/// The bytes' hex; nothing for no bytes.
pub fn plain(bytes: &[u8]) -> String {
    let mut line = Vec::with_capacity(3 * bytes.len());
    push(&mut line, bytes);
    line.into_iter().map(char::from).collect()
}

/// The bytes' hex, with `-` for no bytes.
pub fn or_dash(bytes: &[u8]) -> String {
    if bytes.is_empty() {
        "-".to_string()
    } else {
        plain(bytes)
    }
}

/// One byte from exactly two hex digits, in either case.
pub fn byte(word: &str) -> Option<u8> {
    let two_digits = word.len() == 2 && word.bytes().all(|b| b.is_ascii_hexdigit());
    if two_digits {
        u8::from_str_radix(word, 16).ok()
    } else {
        None
    }
}

/// One byte from each word.
pub fn bytes(words: &[&str]) -> Option<Vec<u8>> {
    words.iter().map(|word| byte(word)).collect()
}

/// One byte from each word, or none from the single word `-`.
pub fn bytes_or_dash(words: &[&str]) -> Option<Vec<u8>> {
    match words {
        [] => None,
        ["-"] => Some(Vec::new()),
        _ => bytes(words),
    }
}

#[cfg(test)]
mod tests {
    use super::*;

    #[test]
    fn there_and_back() {
        let all: Vec<u8> = (0..=255).collect();
        let text = plain(&all);
        let words: Vec<&str> = text.split(' ').collect();
        assert_eq!(bytes(&words), Some(all));
        assert_eq!(or_dash(&[]), "-");
        assert_eq!(bytes_or_dash(&["-"]), Some(vec![]));
        assert_eq!(byte("+1"), None);
        assert_eq!(byte("1"), None);
    }
}
