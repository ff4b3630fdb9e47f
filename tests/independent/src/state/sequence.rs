//! The sequence under way.

use super::{ESC, MESSAGE_BYTES};

const MOST_ARGUMENTS: usize = MESSAGE_BYTES;

/// A command that awaits arguments, with those that came so far.
#[derive(Clone, Copy, PartialEq, Eq, Debug)]
pub struct Gathered {
    command: u8,
    length: u8,
    bytes: [u8; MOST_ARGUMENTS],
}

impl Gathered {
    pub fn new(command: u8) -> Gathered {
        Gathered {
            command,
            length: 0,
            bytes: [0; MOST_ARGUMENTS],
        }
    }

    pub fn command(&self) -> u8 {
        self.command
    }

    pub fn arguments(&self) -> &[u8] {
        &self.bytes[..self.length as usize]
    }

    /// The same command with its first arguments alone.
    pub fn cut_to(self, count: usize) -> Gathered {
        let mut cut = Gathered::new(self.command);
        cut.length = count as u8;
        cut.bytes[..count].copy_from_slice(&self.bytes[..count]);
        cut
    }

    pub fn push(&mut self, byte: u8) {
        self.bytes[self.length as usize] = byte;
        self.length += 1;
    }

    /// Puts a byte before the others.
    pub fn push_front(&mut self, byte: u8) {
        self.bytes.copy_within(..self.length as usize, 1);
        self.bytes[0] = byte;
        self.length += 1;
    }
}

/// The sequence under way. Only the terminal makes one, so each is possible.
#[derive(Clone, Copy, PartialEq, Eq, Debug)]
pub enum Sequence {
    None,
    Escape,
    Arguments(Gathered),
    /// A text that will be refused, without its bytes: it is swallowed to its end.
    Spoilt(Gathered),
}

impl Sequence {
    /// Appends the bytes since and with ESC.
    pub fn spell(&self, bytes: &mut Vec<u8>) {
        match self {
            Sequence::None => {}
            Sequence::Escape => bytes.push(ESC),
            Sequence::Arguments(gathered) | Sequence::Spoilt(gathered) => {
                bytes.extend_from_slice(&[ESC, gathered.command]);
                bytes.extend_from_slice(gathered.arguments());
            }
        }
    }
}
