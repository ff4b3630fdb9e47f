//! Which codes mean what.

/// The number of the key with this value: 40h to 4Fh, then 60h to 6Fh.
pub fn key_number(value: u8) -> Option<usize> {
    match value {
        0x40..=0x4F => Some(value as usize - 0x40),
        0x60..=0x6F => Some(value as usize - 0x60 + 16),
        _ => None,
    }
}

/// The number of the label in this field: 30h to 37h, then 50h to 57h.
pub fn label_number(field: u8) -> Option<usize> {
    match field {
        0x30..=0x37 => Some(field as usize - 0x30),
        0x50..=0x57 => Some(field as usize - 0x50 + 8),
        _ => None,
    }
}

pub fn is_attribute(code: u8) -> bool {
    matches!(code, b' ' | 0x30..=0x3F | 0x70..=0x7E)
}

/// Which of the five remembered features a feature code sets.
pub fn feature_number(code: u8) -> Option<usize> {
    match code {
        b'0' | b'1' => Some(0),
        b'2'..=b'5' => Some(1),
        b'6' | b'7' | b'A' => Some(2),
        b'8' | b'9' => Some(3),
        b'<'..=b'@' => Some(4),
        _ => None,
    }
}
