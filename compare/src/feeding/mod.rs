//! The feed of the C entries, linked into this program, against the model of feed.rs: streams made from a
//! seed and cut at random, states that no call has left, and feeds of another length. After each call
//! everything is compared: the code, all bytes of the feed, the answers, and that nothing else has changed.

mod lent;
mod made;

use crate::feed::{Feed, Pushed, FEED, STATE};
use crate::linked::{in_parts, ARCHIVE};
use crate::random::Random;
use crate::stream;
use crate::tally::{Progress, Tally};
use crate::traffic::Streams;
use lent::{hex, noise, Buffers};
use made::{below, piece_length, requests, Rooms};

/// The code that says that a feed has another length.
const LENGTH: u64 = 10;

/// The longest feed of another length that is tried.
const LONGEST_FEED: u64 = 64;

/// The requests of a long stream, and the places that have one of them.
const LONG: u64 = 20_000;
const PLACES: u64 = 50_000;

/// The port's feed and the model's, side by side.
#[derive(Clone)]
struct Both {
    port: [u8; FEED],
    model: Feed,
}

impl Both {
    fn of(port: [u8; FEED]) -> Both {
        let state = port[..STATE]
            .try_into()
            .expect("a feed begins with its state");
        Both {
            port,
            model: Feed::of_state(state),
        }
    }

    /// Puts noise in place of taken and written, at times: they are not looked at.
    fn disturb(&mut self, random: &mut Random) {
        if random.below(4) == 0 {
            self.port[STATE..].copy_from_slice(&noise(random, FEED - STATE));
        }
    }

    /// The port's feed as a call has left it.
    fn keep(&mut self, buffers: &Buffers) {
        self.port.copy_from_slice(buffers.feed.content());
    }
}

/// What one part of a run compared.
#[derive(Default)]
struct Part {
    tally: Tally,
    streams: u64,
    calls: u64,
    made_up: u64,
    other_lengths: u64,
    /// The calls that ended with code 0, 1, 2 and 3.
    codes: [u64; 4],
}

impl Part {
    /// Counts a call that both sides have made, and answers whether they agree.
    fn count(
        &mut self,
        code: u64,
        want: u64,
        is_same: bool,
        describe: impl FnOnce() -> String,
    ) -> bool {
        self.calls += 1;
        if let Some(calls) = self.codes.get_mut(want as usize) {
            *calls += 1;
        }
        let is_same = is_same && code == want;
        self.tally.count(is_same, || {
            format!("port {code}, model {want}: {}", describe())
        });
        is_same
    }

    /// A piece, taken by both. None where they differ.
    fn push(
        &mut self,
        both: &mut Both,
        piece: &[u8],
        room: usize,
        random: &mut Random,
    ) -> Option<Pushed> {
        both.disturb(random);
        let mut buffers = Buffers::new(&both.port, piece, room, random);
        let code = buffers.push();
        let want = both.model.push(piece, room);
        let bytes = both.model.bytes(want.taken, want.answers.len());
        let is_same = buffers.have_become(&bytes, &want.answers);
        let is_same = self.count(code, want.code, is_same, || {
            let (feed, answers) = (hex(&bytes), hex(&want.answers));
            let left = buffers.describe();
            format!("push with room {room}: {left}; model: feed {feed}; answers {answers}")
        });
        both.keep(&buffers);
        is_same.then_some(want)
    }

    /// Both are closed. None where they differ.
    fn close(&mut self, both: &mut Both, random: &mut Random) -> Option<u64> {
        both.disturb(random);
        let mut buffers = Buffers::new(&both.port, &[], 0, random);
        let code = buffers.close();
        let want = both.model.close();
        let bytes = both.model.bytes(0, 0);
        let is_same = buffers.have_become(&bytes, &[]);
        let is_same = self.count(code, want, is_same, || {
            format!("close: {}; model: feed {}", buffers.describe(), hex(&bytes))
        });
        both.keep(&buffers);
        is_same.then_some(want)
    }

    /// A stream, cut at random, and then closed.
    fn stream(&mut self, streams: &Streams, random: &mut Random) -> Option<()> {
        self.streams += 1;
        let count = made::records(random);
        let stream = requests(streams, count, random);
        let rooms = [Rooms::Small, Rooms::Ample][below(random, 2)];
        let mut both = Both::of([0; FEED]);
        let (taken, answers) = self.pieces(&mut both, &stream, rooms, random)?;
        if both.model.has_stopped() {
            self.stays_stopped(&mut both, streams, random)?;
        }
        let code = self.close(&mut both, random)?;
        self.is_the_batch(&stream, code, taken, &answers);
        Some(())
    }

    /// A stream in one piece with room for all, so long that what is taken and written has three bytes.
    fn long_stream(&mut self, streams: &Streams, random: &mut Random) -> Option<()> {
        self.streams += 1;
        let stream = streams.random(random, LONG);
        let mut both = Both::of([0; FEED]);
        let pushed = self.push(&mut both, &stream, 2 * stream.len(), random)?;
        let code = self.close(&mut both, random)?;
        self.is_the_batch(&stream, code, pushed.taken, &pushed.answers);
        Some(())
    }

    /// Holds what the pieces of a stream gave to the Rust's batch over the whole, with room for all.
    fn is_the_batch(&mut self, stream: &[u8], code: u64, taken: usize, answers: &[u8]) {
        let room = stream::records(stream).map(|(kind, _)| kind.answer_length());
        let mut want = vec![0; room.sum()];
        let report = stream::batch(stream, &mut want);
        let all = match report.code {
            1 => report.read,
            _ => stream.len(),
        };
        let is_same = code == u64::from(report.code) && taken == all && answers == want;
        self.tally.count(is_same, || {
            let (stream, answers, want) = (hex(stream), hex(answers), hex(&want));
            let rust = report.code;
            format!(
                "stream {stream}: pieces {code}, {taken} taken, {answers}; batch {rust}, {want}"
            )
        });
    }

    /// The pieces of a stream, the untaken rest of each offered again, until all is taken or the feed has
    /// stopped: how much was taken, and the answers in a row. A copy of the feed is closed at times.
    fn pieces(
        &mut self,
        both: &mut Both,
        stream: &[u8],
        rooms: Rooms,
        random: &mut Random,
    ) -> Option<(usize, Vec<u8>)> {
        let longest = [1, 4, 12, 80][below(random, 4)];
        let (mut taken, mut untaken, mut answers) = (0, 0, Vec::new());
        loop {
            let rest = &stream[taken..];
            let piece = &rest[..piece_length(random, longest, untaken, rest.len())];
            let room = rooms.next(random, stream.len());
            let pushed = self.push(both, piece, room, random)?;
            if rooms == Rooms::Ample {
                self.goes_on(piece, &pushed)?;
            }
            taken += pushed.taken;
            untaken = piece.len() - pushed.taken;
            answers.extend(pushed.answers);
            if random.below(4) == 0 {
                self.close(&mut both.clone(), random)?;
            }
            if taken == stream.len() || both.model.has_stopped() {
                return Some((taken, answers));
            }
        }
    }

    /// With room for the longest answer a call takes a byte of its piece, where that has one, or stops on
    /// an unknown kind. So a stream has at most one such call more than it has bytes.
    fn goes_on(&mut self, piece: &[u8], pushed: &Pushed) -> Option<()> {
        let goes_on = piece.is_empty() || pushed.taken > 0 || pushed.code == 1;
        self.tally.count(goes_on, || {
            format!("nothing of {} is taken, code {}", hex(piece), pushed.code)
        });
        goes_on.then_some(())
    }

    /// Further calls on a stopped feed: empty pieces, whole records, noise, and closing.
    fn stays_stopped(
        &mut self,
        both: &mut Both,
        streams: &Streams,
        random: &mut Random,
    ) -> Option<()> {
        for _ in 0..2 + random.below(3) {
            let piece = match random.below(3) {
                0 => Vec::new(),
                1 => streams.random(random, 2),
                _ => noise(random, 12),
            };
            let room = Rooms::Small.next(random, piece.len());
            self.push(both, &piece, room, random)?;
            if random.below(3) == 0 {
                self.close(both, random)?;
            }
        }
        Some(())
    }

    /// Some calls on a state that no call has left. The pieces begin with what may end its record.
    fn made_up(&mut self, streams: &Streams, random: &mut Random) -> Option<()> {
        self.made_up += 1;
        let mut both = Both::of(made::made_up(random));
        let length = below(random, 10);
        let mut stream = noise(random, length);
        stream.extend(requests(streams, random.below(9), random));
        let mut taken = 0;
        for _ in 0..1 + random.below(3) {
            if random.below(4) == 0 {
                self.close(&mut both, random)?;
            }
            let rest = &stream[taken..];
            let piece = &rest[..piece_length(random, 12, 0, rest.len())];
            let room = Rooms::Small.next(random, piece.len());
            taken += self.push(&mut both, piece, room, random)?.taken;
        }
        self.close(&mut both, random).map(|_| ())
    }

    /// A feed of another length: both calls say so, and touch nothing.
    fn other_length(&mut self, length: usize, streams: &Streams, random: &mut Random) {
        let mut feed = made::made_up(random).to_vec();
        feed.extend(noise(random, length));
        feed.truncate(length);
        let piece = requests(streams, random.below(9), random);
        let room = Rooms::Small.next(random, piece.len());
        let mut buffers = Buffers::new(&feed, &piece, room, random);
        for call in [Buffers::push, Buffers::close] {
            self.other_lengths += 1;
            let code = call(&mut buffers);
            let is_same = buffers.have_become(&[], &[]);
            self.count(code, LENGTH, is_same, || {
                format!("feed of {length} bytes: {}", buffers.describe())
            });
        }
    }

    /// What is compared at one place: a stream, a made-up state and a feed of another length; and now and
    /// then a long stream.
    fn place(&mut self, place: u64, streams: &Streams, random: &mut Random) {
        // a difference is counted where it is found, and the rest of its stream says nothing more
        let _ = self.stream(streams, random);
        let _ = self.made_up(streams, random);
        if place % PLACES == 0 {
            let _ = self.long_stream(streams, random);
        }
        let length = (place % (LONGEST_FEED + 1)) as usize;
        if length != FEED {
            self.other_length(length, streams, random);
        }
    }

    fn add(&mut self, part: Part) {
        self.tally.add(&part.tally);
        self.streams += part.streams;
        self.calls += part.calls;
        self.made_up += part.made_up;
        self.other_lengths += part.other_lengths;
        for (sum, calls) in self.codes.iter_mut().zip(part.codes) {
            *sum += calls;
        }
    }
}

/// `count` streams and some long ones, with as many made-up states and feeds of another length.
pub fn compare(seed: u64, count: u64) -> u8 {
    let streams = Streams::new();
    let mut sum = Part::default();
    println!("archive {ARCHIVE}");
    for part in in_parts(count, |from, upto| part_of(seed, from, upto, &streams)) {
        sum.add(part);
    }
    let [done, unknown, cut, full] = sum.codes;
    println!(
        "{} streams, {} made-up states, {} calls on feeds of another length",
        sum.streams, sum.made_up, sum.other_lengths
    );
    println!(
        "{} calls: code 0 {done}, 1 {unknown}, 2 {cut}, 3 {full}, 10 {}",
        sum.calls, sum.other_lengths
    );
    sum.tally.finish()
}

fn part_of(seed: u64, from: u64, upto: u64, streams: &Streams) -> Part {
    let mut part = Part::default();
    let mut progress = Progress::new(format!("feed from place {from}"), upto - from);
    for place in from..upto {
        part.place(place, streams, &mut Random::at(seed, place));
        progress.at(place - from);
    }
    progress.end();
    part
}
