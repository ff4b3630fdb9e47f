//! Texts of keys, of labels and of the host message.

use super::{DEL, KEY_BYTES, LABEL_BYTES, MESSAGE_BYTES};

/// A text of at most so many bytes. The length may be impossible; bytes beyond
/// it mean nothing.
#[derive(Clone, Copy, PartialEq, Eq, Debug)]
pub struct Text<const MOST: usize> {
    pub length: u8,
    pub bytes: [u8; MOST],
}

pub type Key = Text<KEY_BYTES>;
pub type Label = Text<LABEL_BYTES>;
pub type Message = Text<MESSAGE_BYTES>;

impl<const MOST: usize> Text<MOST> {
    pub const EMPTY: Self = Text {
        length: 0,
        bytes: [0; MOST],
    };

    /// Takes over the length as it is and the first bytes.
    pub fn holding(text: &[u8]) -> Self {
        let kept = text.len().min(MOST);
        let mut bytes = [0; MOST];
        bytes[..kept].copy_from_slice(&text[..kept]);
        Text {
            length: text.len() as u8,
            bytes,
        }
    }

    pub fn kept(&self) -> &[u8] {
        &self.bytes[..MOST.min(self.length as usize)]
    }

    /// Whether the length is kept and each byte is one of these.
    pub fn is_possible(&self, is_good: fn(u8) -> bool) -> bool {
        self.length as usize <= MOST && self.kept().iter().all(|&byte| is_good(byte))
    }
}

/// What a key may hold.
pub fn is_key_byte(byte: u8) -> bool {
    byte < DEL
}

/// What a label or the host message may hold.
pub fn is_character(byte: u8) -> bool {
    (b' '..=b'~').contains(&byte)
}
