//! Party codes.

pub type Code = [u8; 16];

fn value(character: u8) -> Option<u32> {
    match character {
        b'0'..=b'9' => Some(u32::from(character - b'0')),
        b'A'..=b'Z' => Some(u32::from(character - b'A') + 10),
        b'-' => Some(36),
        _ => None,
    }
}

/// Sixteen characters, the third X; the last one checks the others, and is never "-".
pub fn is_party_code(code: &Code) -> bool {
    let mut sum = 0;
    for (weight, &character) in (2..=16).rev().zip(&code[..15]) {
        let Some(value) = value(character) else {
            return false;
        };
        sum += weight * value;
    }
    // The X makes the sum positive, so it is tested first.
    code[2] == b'X' && code[15] != b'-' && value(code[15]) == Some(36 - (sum - 1) % 37)
}
