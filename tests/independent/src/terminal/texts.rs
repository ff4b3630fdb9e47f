//! Texts of keys, of labels and of the host message.

use super::*;

/// Where a text under way is going.
#[derive(Clone, Copy)]
enum Place {
    Key(usize),
    Label(usize),
    Message,
}

impl Place {
    fn of(gathered: &Gathered) -> Place {
        let Some(&code) = gathered.arguments().first() else {
            return Place::Message;
        };
        match (gathered.command(), key_number(code), label_number(code)) {
            (b'z', Some(number), _) => Place::Key(number),
            (b'z', _, Some(number)) => Place::Label(number),
            _ => Place::Message,
        }
    }

    /// How many arguments stand before the text.
    fn head(self) -> usize {
        match self {
            Place::Key(_) | Place::Label(_) => 1,
            Place::Message => 0,
        }
    }

    fn most(self) -> usize {
        match self {
            Place::Key(_) => KEY_BYTES,
            Place::Label(_) => LABEL_BYTES,
            Place::Message => MESSAGE_BYTES,
        }
    }

    fn end(self) -> u8 {
        match self {
            Place::Key(_) => DEL,
            Place::Label(_) | Place::Message => CR,
        }
    }

    fn takes(self, byte: u8) -> bool {
        match self {
            Place::Key(_) => is_key_byte(byte),
            Place::Label(_) | Place::Message => is_character(byte),
        }
    }
}

impl Terminal {
    /// The byte after ESC z.
    pub(super) fn text_place(&mut self, gathered: Gathered, byte: u8) -> Outcome {
        if byte == DEL {
            self.state.shifted = false;
            return DONE;
        }
        if key_number(byte).is_none() && label_number(byte).is_none() {
            return Err(Refusal::BadArgument);
        }
        self.await_more(gathered, byte)
    }

    pub(super) fn text(&mut self, gathered: Gathered, byte: u8) -> Outcome {
        let place = Place::of(&gathered);
        let text = &gathered.arguments()[place.head()..];
        if byte == place.end() {
            self.keep_text(place, text);
            DONE
        } else if place.takes(byte) && text.len() < place.most() {
            self.await_more(gathered, byte)
        } else {
            self.await_next(Sequence::Spoilt(gathered.cut_to(place.head())))
        }
    }

    pub(super) fn swallow(&mut self, head: Gathered, byte: u8) -> Outcome {
        if byte == Place::of(&head).end() {
            return Err(Refusal::BadArgument);
        }
        self.await_next(Sequence::Spoilt(head))
    }

    fn keep_text(&mut self, place: Place, text: &[u8]) {
        match place {
            Place::Key(number) => self.state.keys[number] = Text::holding(text),
            Place::Label(number) => self.set_label(number, text),
            Place::Message => self.state.message = Text::holding(text),
        }
    }

    /// A label of the shifted line turns that line on unless it is cleared.
    fn set_label(&mut self, number: usize, text: &[u8]) {
        self.state.labels[number] = Text::holding(text);
        let is_of_shifted_line = number >= LABELS / 2;
        if is_of_shifted_line && !text.is_empty() {
            self.state.shifted = true;
        }
    }
}
