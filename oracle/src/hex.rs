//! Octets as text.

/// Lower-case hexadecimal; `-` for none.
pub fn put_hex(out: &mut Vec<u8>, octets: &[u8]) {
    const DIGITS: &[u8; 16] = b"0123456789abcdef";
    if octets.is_empty() {
        out.push(b'-');
    }
    for octet in octets {
        out.push(DIGITS[usize::from(octet >> 4)]);
        out.push(DIGITS[usize::from(octet & 15)]);
    }
}

/// The same as text.
pub fn hex(octets: &[u8]) -> String {
    let mut out = vec![];
    put_hex(&mut out, octets);
    String::from_utf8_lossy(&out).into_owned()
}

/// `None` where the text is neither.
pub fn from_hex(text: &str) -> Option<Vec<u8>> {
    if text == "-" {
        return Some(vec![]);
    }
    let digit = |letter: u8| (letter as char).to_digit(16).map(|value| value as u8);
    let pair = |pair: &[u8]| match pair {
        [high, low] => Some(digit(*high)? << 4 | digit(*low)?),
        _ => None,
    };
    text.as_bytes().chunks(2).map(pair).collect()
}
