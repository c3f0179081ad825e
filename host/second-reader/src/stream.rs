//! A module as it arrives, in parts that are cut anywhere.
//!
//! The rule says what comes of it by one sentence: at the finish the answer is the walk's on all parts
//! joined. So the parts are joined and walked over, without any of the thrift that the rule asks for.

use crate::answer::{Answer, Place, Reason, Refusal, StreamAnswer};
use crate::walk::{payload_of, walk, HINTS, NAMES, OLDER_HINTS};

/// A stream that was begun, and the parts that came since.
#[derive(Clone, Debug, Default, PartialEq, Eq)]
pub struct Stream {
    /// How many bytes were taken. It is open, so that what happens at its limit can be tried.
    pub total: u64,
    joined: Vec<u8>,
    finished: bool,
}

/// A stream of which nothing has come.
#[must_use]
pub fn stream_begin() -> Stream {
    Stream::default()
}

/// Takes the next part. Found: its length.
pub fn stream_part(stream: &mut Stream, part: &[u8]) -> Answer {
    Answer::counted(take(stream, part))
}

/// Says that there are no more parts. Found: the count of sections as the length, and where the
/// payloads of names and of hints of both editions lie.
pub fn stream_finish(stream: &mut Stream) -> StreamAnswer {
    finish(stream).unwrap_or_else(|refusal| Answer::from(refusal).into())
}

fn take(stream: &mut Stream, part: &[u8]) -> Result<u64, Refusal> {
    if stream.finished {
        return Err(Reason::AfterFinish.at(0));
    }
    let length = part.len() as u64;
    let Some(total) = stream.total.checked_add(length) else {
        return Err(Reason::StreamTooLong.at(0));
    };
    stream.total = total;
    stream.joined.extend(part);
    Ok(length)
}

fn finish(stream: &mut Stream) -> Result<StreamAnswer, Refusal> {
    if stream.finished {
        return Err(Reason::AfterFinish.at(0));
    }
    stream.finished = true;
    let place = |name| first_called(&stream.joined, name);
    Ok(StreamAnswer {
        name: place(NAMES)?,
        hints: place(HINTS)?,
        old_hints: place(OLDER_HINTS)?,
        ..walk(&stream.joined).into()
    })
}

/// Where the payload of the first custom section of a name lies.
fn first_called(module: &[u8], name: &[u8]) -> Result<Option<Place>, Refusal> {
    let payload = payload_of(module, |other| other == name)?;
    Ok(payload.map(|payload| Place {
        offset: payload.offset() as u64,
        length: payload.bytes().len() as u64,
    }))
}
