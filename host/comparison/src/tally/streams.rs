//! Modules as they arrive: cut into parts in many ways, held to the walk over all of them and to the second reader's
//! answers, and the states that they leave held to each other.

use super::{assert_met, framed, Tally, GUARD, GUARD_BYTE, HINTS, NAMES, OLD_HINTS};
use crate::library::{self, Stream, Told, ToldStream, FOUND, REFUSED};
use crate::random::Random;
use std::mem::size_of;

/// A module of at most so many bytes is cut at every place.
const CUT_EVERYWHERE: usize = 4_096;

/// A longer one is cut at every place of so many bytes at its start and at its end, and at so many between.
const CUT_AT_ENDS: usize = 64;
const CUT_BETWEEN: usize = 200;

/// Parts that are cut at random have fewer bytes than this, and of so many one has none.
const PART_BOUND: usize = 40;
const ONE_EMPTY_IN: usize = 4;

impl Tally {
    /// A module that arrives in two parts, cut at every place, and byte by byte. After each cut it is finished, too, as
    /// the module that has come until then.
    pub fn arrives(&mut self, m: &[u8]) {
        let states = self.states(m);
        let walked = self.walked(m);
        for at in cuts(m.len()) {
            let (one, other) = m.split_at(at);
            let (state, told) = self.streamed([one]);
            assert_eq!(state, states[at], "{at} bytes of {m:02X?}");
            assert_eq!(told, self.walked(one), "{at} bytes of {m:02X?}");
            let (state, told) = self.streamed([one, other]);
            assert_eq!(state, states[m.len()], "{m:02X?}, cut at {at}");
            assert_eq!(told, walked, "{m:02X?}, cut at {at}");
        }
        let (state, told) = self.streamed(m.chunks(1));
        assert_eq!(state, states[m.len()], "{m:02X?}, byte by byte");
        assert_eq!(told, walked, "{m:02X?}, byte by byte");
    }

    /// The same in many parts, cut at random, of which some are empty.
    pub fn arrives_at_random(&mut self, m: &[u8], r: &mut Random) {
        let parts = random_parts(m, r);
        let (state, told) = self.streamed(parts.iter().copied());
        let (whole, _) = self.streamed([m]);
        assert_eq!(state, whole, "{parts:02X?}");
        assert_eq!(told, self.walked(m), "{parts:02X?}");
    }

    /// What the finish is to say of a module: what the walk says, and where the three payloads lie.
    fn walked(&mut self, m: &[u8]) -> ToldStream {
        let Told {
            kind,
            code,
            offset,
            length,
        } = ask!(self, m, walk);
        let walked = ToldStream {
            kind,
            code,
            offset,
            length,
            ..ToldStream::default()
        };
        self.count_walked(walked);
        if kind == REFUSED {
            return walked;
        }
        ToldStream {
            name: ask!(self, m, custom, NAMES).into(),
            hints: ask!(self, m, custom, HINTS).into(),
            old_hints: ask!(self, m, custom, OLD_HINTS).into(),
            ..walked
        }
    }

    /// What both readers say of parts at the finish, and the state before it.
    pub fn streamed<'a>(
        &mut self,
        parts: impl IntoIterator<Item = &'a [u8]>,
    ) -> (Stream, ToldStream) {
        let mut read = self.stream_begin();
        for part in parts {
            let told = self.stream_part(&mut read, part);
            assert_eq!(told.kind, FOUND, "{part:02X?}");
        }
        let state = self.output.last_stream().clone();
        (state, self.stream_finish(&mut read))
    }

    /// The state behind each byte of a module, and before the first.
    fn states(&mut self, m: &[u8]) -> Vec<Stream> {
        let mut read = self.stream_begin();
        let mut states = vec![self.output.last_stream().clone()];
        for part in m.chunks(1) {
            self.stream_part(&mut read, part);
            states.push(self.output.last_stream().clone());
        }
        states
    }

    /// Begins a stream of both readers. That of the library lies in an output, with guard bytes before it and nothing
    /// mapped behind it.
    pub fn stream_begin(&mut self) -> second_reader::Stream {
        framed(&mut self.output, size_of::<Stream>());
        *self.output.last_stream() = library::stream_begin();
        self.calls += 1;
        second_reader::stream_begin()
    }

    /// The state of the library's stream, which a caller may change.
    pub fn stream(&mut self) -> &mut Stream {
        self.output.last_stream()
    }

    /// Gives a part to the stream of each reader. A refusal changes nothing.
    pub fn stream_part(&mut self, read: &mut second_reader::Stream, part: &[u8]) -> Told {
        let lent = self.lent.lend(part);
        let stream = self.output.last_stream();
        let before = stream.clone();
        let told = library::stream_part(stream, lent);
        let expected = Told::from(second_reader::stream_part(read, part));
        assert_eq!(told, expected, "{part:02X?} to {before:?}");
        assert_eq!(lent, part, "what was lent changed");
        assert_eq!(stream.total, read.total, "{part:02X?} to {before:?}");
        if told.kind == REFUSED || part.is_empty() {
            assert_eq!(*stream, before, "{part:02X?}");
        }
        self.assert_guarded();
        self.calls += 1;
        told
    }

    /// Finishes the stream of each reader. A finish after the finish changes nothing.
    pub fn stream_finish(&mut self, read: &mut second_reader::Stream) -> ToldStream {
        let stream = self.output.last_stream();
        let before = stream.clone();
        let told = library::stream_finish(stream);
        let finished_before = read.clone();
        let expected = ToldStream::from(second_reader::stream_finish(read));
        assert_eq!(told, expected, "{before:?}");
        assert_eq!(stream.total, before.total, "the total stays");
        if *read == finished_before {
            assert_eq!(*stream, before, "a finish after the finish");
        }
        self.assert_guarded();
        self.calls += 1;
        told
    }

    fn assert_guarded(&mut self) {
        let framed = self.output.last(GUARD + size_of::<Stream>());
        let guard = &framed[..GUARD];
        let unchanged = guard.iter().all(|byte| *byte == GUARD_BYTE);
        assert!(unchanged, "written before the state");
    }

    fn count_walked(&mut self, walked: ToldStream) {
        *self.streams_met.entry(walked.code).or_default() += 1;
    }

    /// Modules that arrived were accepted, which is 0 here, and refused with each of these numbers, so often at least.
    pub fn assert_streams_met(&self, codes: &[u32], least: u64) {
        assert_met(&self.streams_met, codes, least);
    }
}

/// The places at which a module of a length is cut, both ends included.
fn cuts(length: usize) -> Vec<usize> {
    if length <= CUT_EVERYWHERE {
        return (0..=length).collect();
    }
    let between = (CUT_AT_ENDS..length - CUT_AT_ENDS).step_by(length / CUT_BETWEEN);
    (0..CUT_AT_ENDS)
        .chain(between)
        .chain(length - CUT_AT_ENDS..=length)
        .collect()
}

/// Parts of a module, some of which are empty.
fn random_parts<'a>(m: &'a [u8], r: &mut Random) -> Vec<&'a [u8]> {
    let mut parts = vec![];
    let mut rest = m;
    while !rest.is_empty() {
        let length = match r.once_in(ONE_EMPTY_IN) {
            true => 0,
            false => 1 + r.below(rest.len().min(PART_BOUND)),
        };
        let (part, behind) = rest.split_at(length);
        parts.push(part);
        rest = behind;
    }
    parts
}
