//! The calls of the feed's C entries, on buffers with noise round them.

use crate::random::Random;
use std::ptr::null_mut;

extern "C" {
    fn rvt_feed_push(
        feed: *mut u8,
        feed_length: usize,
        piece: *const u8,
        piece_length: usize,
        answers: *mut u8,
        answers_length: usize,
    ) -> u64;
    fn rvt_feed_close(feed: *mut u8, feed_length: usize) -> u64;
}

/// The bytes of noise on each side of what is lent.
const GUARD: usize = 16;

/// The bytes of a buffer that are printed.
const SHOWN: usize = 120;

pub fn noise(random: &mut Random, length: usize) -> Vec<u8> {
    let words = std::iter::repeat_with(|| random.next().to_le_bytes());
    words.flatten().take(length).collect()
}

/// A buffer to lend, with noise on both sides.
pub struct Lent {
    before: Vec<u8>,
    now: Vec<u8>,
    is_null: bool,
}

impl Lent {
    /// An empty buffer is lent by a null pointer at times.
    fn new(content: &[u8], random: &mut Random) -> Lent {
        let mut before = noise(random, GUARD);
        before.extend(content);
        before.extend(noise(random, GUARD));
        Lent {
            now: before.clone(),
            before,
            is_null: content.is_empty() && random.below(2) == 0,
        }
    }

    fn pointer(&mut self) -> *mut u8 {
        match self.is_null {
            true => null_mut(),
            false => self.now[GUARD..].as_mut_ptr(),
        }
    }

    pub fn content(&self) -> &[u8] {
        &self.now[GUARD..self.now.len() - GUARD]
    }

    /// It begins with these bytes, and all else is as it was.
    fn has_become(&self, front: &[u8]) -> bool {
        let end = GUARD + front.len();
        self.now[GUARD..end] == *front
            && self.now[..GUARD] == self.before[..GUARD]
            && self.now[end..] == self.before[end..]
    }

    fn is_untouched(&self) -> bool {
        self.has_become(&[])
    }

    /// What it was and what it is, and whether the noise round it has changed.
    fn describe(&self) -> String {
        let end = self.now.len() - GUARD;
        let mut text = hex(&self.before[GUARD..end]);
        if self.now[GUARD..end] != self.before[GUARD..end] {
            text += &format!(" -> {}", hex(self.content()));
        }
        if self.now[..GUARD] != self.before[..GUARD] || self.now[end..] != self.before[end..] {
            text += ", written beyond";
        }
        text
    }
}

/// Bytes in a row, two digits each; of many only the first, and how many they are.
pub fn hex(bytes: &[u8]) -> String {
    let digits = bytes.iter().take(SHOWN).map(|byte| format!("{byte:02x}"));
    let digits = digits.collect::<String>();
    match bytes.len() <= SHOWN {
        true => format!("[{digits}]"),
        false => format!("[{digits}.. {} bytes]", bytes.len()),
    }
}

/// The buffers of a call, and the port's calls on them.
pub struct Buffers {
    pub feed: Lent,
    piece: Lent,
    answers: Lent,
}

impl Buffers {
    pub fn new(feed: &[u8], piece: &[u8], room: usize, random: &mut Random) -> Buffers {
        let answers = noise(random, room);
        Buffers {
            feed: Lent::new(feed, random),
            piece: Lent::new(piece, random),
            answers: Lent::new(&answers, random),
        }
    }

    // The entries take buffers with their lengths, keep nothing and return.
    pub fn push(&mut self) -> u64 {
        let (feed, piece) = (self.feed.content().len(), self.piece.content().len());
        let room = self.answers.content().len();
        unsafe {
            rvt_feed_push(
                self.feed.pointer(),
                feed,
                self.piece.pointer(),
                piece,
                self.answers.pointer(),
                room,
            )
        }
    }

    pub fn close(&mut self) -> u64 {
        let length = self.feed.content().len();
        unsafe { rvt_feed_close(self.feed.pointer(), length) }
    }

    pub fn have_become(&self, feed: &[u8], answers: &[u8]) -> bool {
        self.feed.has_become(feed) && self.piece.is_untouched() && self.answers.has_become(answers)
    }

    /// All that a call was given, and what it has changed.
    pub fn describe(&self) -> String {
        format!(
            "feed {}; piece {}; answers {}",
            self.feed.describe(),
            self.piece.describe(),
            self.answers.describe()
        )
    }
}
