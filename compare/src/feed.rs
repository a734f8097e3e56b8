//! A model of the feed, from the words of the request alone: byte by byte, with the answers of libm. Nothing
//! of the port is in it.

use crate::kinds::Kind;
use crate::stream::{batch, kind_of};

/// The bytes of a feed: 16 of state, then taken and written of the last call.
pub const FEED: usize = 32;

/// The bytes of a feed's state.
pub const STATE: usize = 16;

/// The most that a feed holds.
const HELD: usize = 8;

/// The number of a stopped feed, in place of how many bytes it holds.
const STOPPED: u8 = 9;

/// The start of one record, or that an unknown kind has come. A stopped feed holds nothing.
#[derive(Clone, Debug, Default, PartialEq)]
pub struct Feed {
    held: Vec<u8>,
    has_stopped: bool,
}

/// What a call that takes a piece reports.
#[derive(Debug, PartialEq)]
pub struct Pushed {
    pub code: u64,
    pub taken: usize,
    pub answers: Vec<u8>,
}

impl Feed {
    fn stopped() -> Feed {
        Feed {
            held: Vec::new(),
            has_stopped: true,
        }
    }

    pub fn has_stopped(&self) -> bool {
        self.has_stopped
    }

    /// The feed of any state. What stands beyond the number does not count, and a state that holds no
    /// proper start of a known record counts as stopped.
    pub fn of_state(state: &[u8; STATE]) -> Feed {
        let (bytes, number) = state.split_at(HELD);
        let number = u64::from_le_bytes(number.try_into().expect("eight bytes are left"));
        if number > HELD as u64 {
            return Feed::stopped();
        }
        let held = bytes[..number as usize].to_vec();
        let is_start = |kind: &Kind| held.len() < kind.request_length();
        match held.first() {
            Some(&first) if !kind_of(first).is_some_and(is_start) => Feed::stopped(),
            _ => Feed {
                held,
                has_stopped: false,
            },
        }
    }

    /// What is held with zeros behind it, and then how many bytes that is, the lowest byte first.
    fn state(&self) -> [u8; STATE] {
        let mut state = [0; STATE];
        state[..self.held.len()].copy_from_slice(&self.held);
        state[HELD] = match self.has_stopped {
            true => STOPPED,
            false => self.held.len() as u8,
        };
        state
    }

    /// All bytes of the feed, behind a call that took and wrote so many.
    pub fn bytes(&self, taken: usize, written: usize) -> [u8; FEED] {
        let mut bytes = [0; FEED];
        bytes[..STATE].copy_from_slice(&self.state());
        bytes[STATE..STATE + 8].copy_from_slice(&(taken as u64).to_le_bytes());
        bytes[STATE + 8..].copy_from_slice(&(written as u64).to_le_bytes());
        bytes
    }

    /// Takes a piece: it goes on until the piece is used up, code 0, or a refusal comes. A stopped feed
    /// answers 1 also to an empty piece.
    pub fn push(&mut self, piece: &[u8], room: usize) -> Pushed {
        let mut pushed = Pushed {
            code: 0,
            taken: 0,
            answers: Vec::new(),
        };
        if self.has_stopped {
            return Pushed { code: 1, ..pushed };
        }
        for &byte in piece {
            match self.next(byte, room - pushed.answers.len()) {
                Ok(answer) => pushed.answers.extend(answer),
                Err(code) => return Pushed { code, ..pushed },
            }
            pushed.taken += 1;
        }
        pushed
    }

    /// Takes the next byte and gives the answer where it ends a record; or refuses it, 1 before 3. It never
    /// takes an unknown kind, and a record's last byte only where the whole answer fits.
    fn next(&mut self, byte: u8, room: usize) -> Result<Vec<u8>, u64> {
        let mut record = self.held.clone();
        record.push(byte);
        let Some(kind) = kind_of(record[0]) else {
            *self = Feed::stopped();
            return Err(1);
        };
        if record.len() < kind.request_length() {
            self.held = record;
            return Ok(Vec::new());
        }
        if kind.answer_length() > room {
            return Err(3);
        }
        self.held.clear();
        Ok(answer(kind, &record))
    }

    /// Closes the feed: a stopped one stays so, any other is empty again.
    pub fn close(&mut self) -> u64 {
        if self.has_stopped {
            return 1;
        }
        let code = match self.held.is_empty() {
            true => 0,
            false => 2,
        };
        self.held.clear();
        code
    }
}

/// The Rust's answer to a whole record.
fn answer(kind: &Kind, record: &[u8]) -> Vec<u8> {
    let mut answer = vec![0; kind.answer_length()];
    batch(record, &mut answer);
    answer
}

#[cfg(test)]
mod tests {
    use super::*;
    use crate::kinds::kinds;
    use crate::stream::program;

    /// erf of 6 and lgamma_r of 1, and the answers to them.
    const REQUESTS: [u8; 18] = [
        3, 0, 0, 0, 0, 0, 0, 0x18, 0x40, 2, 0, 0, 0, 0, 0, 0, 0xf0, 0x3f,
    ];
    const ANSWERS: [u8; 19] = [
        0x83, 0, 0, 0, 0, 0, 0, 0xf0, 0x3f, 0x82, 0, 0, 0, 0, 0, 0, 0, 0, 1,
    ];

    fn pushed(code: u64, taken: usize, answers: &[u8]) -> Pushed {
        Pushed {
            code,
            taken,
            answers: answers.to_vec(),
        }
    }

    fn feed_of(number: u64, held: &[u8]) -> Feed {
        let mut state = [0; STATE];
        state[..held.len()].copy_from_slice(held);
        state[HELD..].copy_from_slice(&number.to_le_bytes());
        Feed::of_state(&state)
    }

    #[test]
    fn every_cut_in_two() {
        for cut in 0..=REQUESTS.len() {
            let (front, back) = REQUESTS.split_at(cut);
            let mut feed = Feed::default();
            let (first, second) = (feed.push(front, 19), feed.push(back, 19));
            assert_eq!((first.code, first.taken), (0, front.len()));
            assert_eq!((second.code, second.taken), (0, back.len()));
            assert_eq!([first.answers, second.answers].concat(), ANSWERS);
            assert_eq!(feed, Feed::default());
            assert_eq!(feed.close(), 0);
        }
    }

    #[test]
    fn the_last_byte_waits_for_room() {
        let mut feed = Feed::default();
        assert_eq!(feed.push(&REQUESTS, 18), pushed(3, 17, &ANSWERS[..9]));
        assert_eq!(feed, feed_of(8, &REQUESTS[9..17]));
        assert_eq!(feed.push(&REQUESTS[17..], 9), pushed(3, 0, &[]));
        assert_eq!(feed.push(&[], 0), pushed(0, 0, &[]));
        assert_eq!(feed.push(&REQUESTS[17..], 10), pushed(0, 1, &ANSWERS[9..]));
        assert_eq!(feed.bytes(0, 0), [0; FEED]);
    }

    #[test]
    fn an_unknown_kind_stops_it() {
        for byte in (0..=255).filter(|&byte| kind_of(byte).is_none()) {
            let mut feed = Feed::default();
            let piece = [&REQUESTS[..9], &[byte], &REQUESTS[9..]].concat();
            assert_eq!(feed.push(&piece, 9), pushed(1, 9, &ANSWERS[..9]));
            for _ in 0..2 {
                assert_eq!(feed.push(&[], 0), pushed(1, 0, &[]));
                assert_eq!(feed.push(&REQUESTS, 19), pushed(1, 0, &[]));
                assert_eq!(feed.close(), 1);
            }
            let mut bytes = [0; FEED];
            bytes[8] = 9;
            assert_eq!(feed.bytes(0, 0), bytes);
        }
    }

    #[test]
    fn closing_a_start_gives_an_empty_feed() {
        for cut in 1..9 {
            let mut feed = Feed::default();
            assert_eq!(feed.push(&REQUESTS[..cut], 0), pushed(0, cut, &[]));
            assert_eq!(feed.bytes(0, 0)[..cut], REQUESTS[..cut]);
            assert_eq!(feed.bytes(0, 0)[8], cut as u8);
            assert_eq!(feed.close(), 2);
            assert_eq!(feed, Feed::default());
        }
    }

    #[test]
    fn every_state_is_a_feed() {
        for kind in kinds() {
            let held = [kind.number, 1, 2, 3, 4, 5, 6, 7];
            assert_eq!(feed_of(0, &held), Feed::default());
            for number in 1..20 {
                let is_start = number < kind.request_length();
                let feed = feed_of(number as u64, &held);
                assert_eq!(feed.has_stopped(), !is_start);
                assert!(!is_start || feed.held == held[..number]);
                assert!(feed_of(number as u64 + (1 << 8), &held).has_stopped());
                assert!(feed_of(number as u64 + (1 << 63), &held).has_stopped());
            }
        }
        assert!(feed_of(1, &[0]).has_stopped());
        assert!(feed_of(8, &[255; 8]).has_stopped());
    }

    #[test]
    fn answers_are_those_of_the_program() {
        for kind in kinds() {
            let record = vec![kind.number; kind.request_length()];
            let want = program(&record);
            let pushed = Feed::default().push(&record, kind.answer_length());
            assert_eq!(pushed.answers, want[..want.len() - 2]);
        }
    }
}
