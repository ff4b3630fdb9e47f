//! A run up to the first reply or refusal.

use super::*;

/// What it reports: a run's numbers, and which command the reply answers.
#[derive(Clone, Copy, PartialEq, Eq, Debug)]
pub struct Next<'a> {
    pub run: Run<'a>,
    /// ENQ, or the byte after ESC; none without a reply.
    pub asked: Option<u8>,
}

impl Terminal {
    /// A byte that replies or is refused is the last one taken. During a send the
    /// call is for the send alone, and all bytes wait.
    pub fn next<'a>(&mut self, input: &'a [u8], room: &mut [u8]) -> Next<'a> {
        if !self.is_possible() {
            return Next {
                run: Run::impossible(input),
                asked: None,
            };
        }
        if let Some(sending) = self.state.sending {
            return self.next_part(sending.command, input, room);
        }
        for (place, &byte) in input.iter().enumerate() {
            match self.take(byte, room) {
                DONE => {}
                outcome @ Err(Refusal::NoRoom) => return event(outcome, input, place),
                outcome => return event(outcome, input, place + 1),
            }
        }
        event(DONE, input, input.len())
    }

    fn next_part<'a>(&mut self, command: u8, input: &'a [u8], room: &mut [u8]) -> Next<'a> {
        if room.is_empty() && !input.is_empty() {
            return event(Err(Refusal::NoRoom), input, 0);
        }
        let replied = self.go_on(room);
        Next {
            asked: (replied > 0).then_some(command),
            ..event(Ok(replied), input, 0)
        }
    }

    /// An empty list is none.
    pub fn next_with_rows<'a>(
        &mut self,
        input: &'a [u8],
        room: &mut [u8],
        list: &mut [u16],
    ) -> Next<'a> {
        if list.is_empty() {
            return self.next(input, room);
        }
        if !self.agrees_with(list) {
            return Next {
                run: Run::impossible(input),
                asked: None,
            };
        }
        let next = self.next(input, room);
        list.copy_from_slice(&self.rows_with_room());
        next
    }
}

/// The report after so many bytes, the last of which had this outcome. Every
/// command that replies is told by its last byte.
fn event(outcome: Outcome, input: &[u8], taken: usize) -> Next<'_> {
    let replied = outcome.unwrap_or(0);
    let run = Run {
        answer: answer_number(outcome),
        taken,
        replied,
        refused: outcome.is_err_and(|refusal| refusal != Refusal::NoRoom) as usize,
        rest: &input[taken..],
    };
    let asked = match replied {
        0 => None,
        _ => input[..taken].last().copied(),
    };
    Next { run, asked }
}
