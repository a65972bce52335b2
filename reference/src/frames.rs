//! Lists of calls in bytes: each call is a u32 tag, a u32 payload length and the payload, little-endian.

/// Bytes of a call's tag and payload length.
pub const HEAD: usize = 8;
pub const MAX_PAYLOAD: usize = 8_192;

/// The calls of a list; an error is the place of the tag of a call that cannot be read, and ends the list.
pub struct Calls<'a, Call> {
    bytes: &'a [u8],
    at: usize,
    ended: bool,
    read: fn(u32, &'a [u8]) -> Option<Call>,
}

impl<'a, Call> Calls<'a, Call> {
    /// `read`: the call of a tag and a payload, if there is one.
    pub fn of(bytes: &'a [u8], read: fn(u32, &'a [u8]) -> Option<Call>) -> Self {
        Self { bytes, at: 0, ended: false, read }
    }
}

impl<Call> Iterator for Calls<'_, Call> {
    type Item = Result<Call, usize>;

    fn next(&mut self) -> Option<Self::Item> {
        let rest = self.bytes.get(self.at..).filter(|rest| !rest.is_empty() && !self.ended)?;
        let place = self.at;
        let call = split(rest).and_then(|(tag, payload)| {
            self.at += HEAD + payload.len();
            (self.read)(tag, payload)
        });
        self.ended = call.is_none();
        Some(call.ok_or(place))
    }
}

/// The tag and the payload of the first call.
fn split(bytes: &[u8]) -> Option<(u32, &[u8])> {
    let (tag, rest) = word(bytes)?;
    let (length, rest) = word(rest)?;
    let length = usize::try_from(length).ok().filter(|&length| length <= MAX_PAYLOAD)?;
    Some((tag, rest.get(..length)?))
}

/// The first word, and the bytes after it.
pub fn word(bytes: &[u8]) -> Option<(u32, &[u8])> {
    let (first, rest) = bytes.split_first_chunk()?;
    Some((u32::from_le_bytes(*first), rest))
}
