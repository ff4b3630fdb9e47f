//! What ESC ` sets, by name.

/// The features that ESC ` sets: what the codes of [`State::features`](crate::State) say, each at its place.
#[derive(Clone, Copy, Debug, PartialEq, Eq, Hash)]
pub struct Features {
    pub cursor_shown: bool,
    pub cursor_style: CursorStyle,
    pub protected_look: ProtectedLook,
    pub screen_shown: bool,
    pub scrolling: Scrolling,
}

impl Features {
    // The places of the codes.
    pub const CURSOR_SHOWN: usize = 0;
    pub const CURSOR_STYLE: usize = 1;
    pub const PROTECTED_LOOK: usize = 2;
    pub const SCREEN_SHOWN: usize = 3;
    pub const SCROLLING: usize = 4;

    // The codes of what is shown or not; those of the others are with their types.
    pub const CURSOR_OFF: u8 = b'0';
    pub const CURSOR_ON: u8 = b'1';
    pub const SCREEN_OFF: u8 = b'8';
    pub const SCREEN_ON: u8 = b'9';

    /// What these codes say, if each is one of its place.
    pub fn from_codes(codes: [u8; 5]) -> Option<Self> {
        Some(Features {
            cursor_shown: on(codes[Self::CURSOR_SHOWN], Self::CURSOR_OFF, Self::CURSOR_ON)?,
            cursor_style: CursorStyle::from_code(codes[Self::CURSOR_STYLE])?,
            protected_look: ProtectedLook::from_code(codes[Self::PROTECTED_LOOK])?,
            screen_shown: on(codes[Self::SCREEN_SHOWN], Self::SCREEN_OFF, Self::SCREEN_ON)?,
            scrolling: Scrolling::from_code(codes[Self::SCROLLING])?,
        })
    }

    pub fn codes(self) -> [u8; 5] {
        let mut codes = [0; 5];
        codes[Self::CURSOR_SHOWN] = if self.cursor_shown { Self::CURSOR_ON } else { Self::CURSOR_OFF };
        codes[Self::CURSOR_STYLE] = self.cursor_style.code();
        codes[Self::PROTECTED_LOOK] = self.protected_look.code();
        codes[Self::SCREEN_SHOWN] = if self.screen_shown { Self::SCREEN_ON } else { Self::SCREEN_OFF };
        codes[Self::SCROLLING] = self.scrolling.code();
        codes
    }
}

fn on(code: u8, off: u8, on: u8) -> Option<bool> {
    (code == off || code == on).then_some(code == on)
}

#[derive(Clone, Copy, Debug, PartialEq, Eq, Hash)]
#[repr(u8)]
pub enum CursorStyle {
    SteadyBlock = b'2',
    BlinkingLine = b'3',
    SteadyLine = b'4',
    BlinkingBlock = b'5',
}

impl CursorStyle {
    pub fn code(self) -> u8 {
        self as u8
    }

    pub fn from_code(code: u8) -> Option<Self> {
        use CursorStyle::*;
        [SteadyBlock, BlinkingLine, SteadyLine, BlinkingBlock].into_iter().find(|x| x.code() == code)
    }
}

/// How protected cells look.
#[derive(Clone, Copy, Debug, PartialEq, Eq, Hash)]
#[repr(u8)]
pub enum ProtectedLook {
    Reverse = b'6',
    Dim = b'7',
    Normal = b'A',
}

impl ProtectedLook {
    pub fn code(self) -> u8 {
        self as u8
    }

    pub fn from_code(code: u8) -> Option<Self> {
        use ProtectedLook::*;
        [Reverse, Dim, Normal].into_iter().find(|x| x.code() == code)
    }
}

/// Smooth at so many rows a second, or by jumps.
#[derive(Clone, Copy, Debug, PartialEq, Eq, Hash)]
#[repr(u8)]
pub enum Scrolling {
    Smooth1 = b'<',
    Smooth2 = b'=',
    Smooth4 = b'>',
    Smooth8 = b'?',
    Jump = b'@',
}

impl Scrolling {
    pub fn code(self) -> u8 {
        self as u8
    }

    pub fn from_code(code: u8) -> Option<Self> {
        use Scrolling::*;
        [Smooth1, Smooth2, Smooth4, Smooth8, Jump].into_iter().find(|x| x.code() == code)
    }
}
