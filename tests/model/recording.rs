//! The recording entry: lines end to end, and the sums of their mended bytes.

use crate::receiver::{receive_line_lent, Answer, Receiver, CLOSED_NONE};

/// Mended bytes over some lines.
#[derive(Clone, PartialEq, Debug, Default)]
pub struct Mended {
    /// The sum over all of the lines.
    pub bytes: usize,
    /// How many of the lines had one or more.
    pub lines: usize,
    /// The sum over the page's own lines: those of kinds 1 and 2.
    pub own: usize,
}

impl Mended {
    /// One more line. A refused one adds nothing: it counts 0.
    pub fn add(&mut self, answer: &Answer) {
        let bytes = answer.mended as usize;
        self.bytes += bytes;
        self.lines += (bytes > 0) as usize;
        if answer.kind == 1 || answer.kind == 2 {
            self.own += bytes;
        }
    }
}

/// Where one call of the recording entry came to: the lines it used, their mended bytes, and the stopping
/// line's answer, or none at the recording's end.
pub struct Played {
    pub lines: usize,
    pub mended: Mended,
    pub stop: Option<Answer>,
}

/// The recording entry: plays lines until one is refused or closes a page. "A recording's answer carries
/// the sum over the lines that it used, the last included."
pub fn play(receiver: &mut Receiver, record: &mut [u8], recording: &[u8]) -> Played {
    let mut played = Played { lines: 0, mended: Mended::default(), stop: None };
    for line in recording.chunks(45) {
        let answer = receive_line_lent(receiver, record, line);
        played.lines += 1;
        played.mended.add(&answer);
        if answer.number != 0 || answer.closing != CLOSED_NONE {
            played.stop = Some(answer);
            break;
        }
    }
    played
}
