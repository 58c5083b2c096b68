//! The server for Rust, over its library for C: every function here is safe, since the types say all that the library asks of a
//! caller. Handles stay on the thread that opened them (a raw pointer isn't `Send`).
#![allow(dead_code)]
use std::ffi::c_void;

#[repr(C)]
struct Handle {
    inside: *mut c_void,
    is_open: bool,
}

/// docs/FORMATS.md, "Limits".
#[repr(C)]
pub struct Limits {
    pub units: u32,
    pub blocks: u32,
    pub methods: u32,
    pub nodes: u32,
    pub callers: u32,
    pub recording: u32,
    pub discards_late: bool,
}

impl Default for Limits {
    /// As much as most shows need, for one caller, with 16 MiB of recording.
    fn default() -> Limits {
        Limits {
            units: 1024,
            blocks: 4096,
            methods: 1024,
            nodes: 4096,
            callers: 1,
            recording: 1 << 24,
            discards_late: false,
        }
    }
}

/// What a call answered, with the numbers of `osc_answer` in the header.
#[repr(C)]
#[derive(Clone, Copy, Debug, PartialEq, Eq)]
pub struct Answer {
    pub status: u32,
    pub number: u32,
    pub unit: u64,
    pub count: u32,
    pub late: u32,
    pub need: u64,
    pub free: u64,
}

#[repr(C)]
#[derive(Clone, Copy, Debug, Default, PartialEq, Eq)]
pub struct Call {
    pub unit: u64,
    pub method: u32,
    pub index: u32,
    pub size: u32,
}

#[repr(C)]
#[derive(Clone, Copy, Default)]
struct RawArgument {
    word: u64,
    place: u32,
    size: u32,
    tag: u32,
}

#[link(name = "vestrulj", kind = "static")]
unsafe extern "C" {
    fn osc_server_open(server: *mut Handle, limits: *const Limits) -> Answer;
    fn osc_server_close(server: *mut Handle);
    fn osc_server_add(server: *mut Handle, address: *const u8, size: usize) -> Answer;
    fn osc_server_remove(server: *mut Handle, address: *const u8, size: usize) -> Answer;
    fn osc_server_submit(server: *mut Handle, packet: *const u8, size: usize) -> Answer;
    fn osc_server_tick(server: *mut Handle, moment: u64) -> Answer;
    fn osc_server_release(server: *mut Handle) -> Answer;
    fn osc_server_due(server: *mut Handle) -> Answer;
    fn osc_server_next_call(server: *mut Handle, call: *mut Call, buffer: *mut u8, room: usize) -> u32;
    fn osc_server_recorded(server: *mut Handle) -> usize;
    fn osc_server_read_recording(server: *mut Handle, from: usize, buffer: *mut u8, room: usize) -> usize;
    fn osc_packet_check(bytes: *const u8, size: usize) -> Answer;
    fn osc_message_read(bytes: *const u8, size: usize, arguments: *mut RawArgument, room: usize) -> Answer;
    fn osc_message_write(
        pattern: *const u8,
        pattern_size: usize,
        arguments: *const RawArgument,
        count: usize,
        bytes: *const u8,
        size: usize,
        buffer: *mut u8,
        room: usize,
    ) -> Answer;
    fn osc_pattern_matches(pattern: *const u8, size: usize, address: *const u8, room: usize) -> u32;
}

const OK: u32 = 0;
const NOTHING_DUE: u32 = 1;
const BAD_PACKET: u32 = 12;

#[derive(Clone, Copy, Debug, PartialEq, Eq)]
pub enum Refused {
    /// The bytes are no packet: the kind of the first fault, and its place.
    BadPacket { kind: u32, place: u64 },
    /// Any other status of the header.
    Other(Answer),
}

impl Answer {
    fn accepted(self) -> Result<Answer, Refused> {
        match self.status {
            OK => Ok(self),
            BAD_PACKET => Err(Refused::BadPacket { kind: self.number, place: self.unit }),
            _ => Err(Refused::Other(self)),
        }
    }
}

/// Whether the bytes are one packet.
pub fn check(packet: &[u8]) -> Result<(), Refused> {
    // SAFETY: the pointer is that of as many readable bytes.
    unsafe { osc_packet_check(packet.as_ptr(), packet.len()) }.accepted().map(|_| ())
}

/// Whether the pattern matches the address; none where one of them is no pattern or no address, or out of memory.
pub fn matches(pattern: &str, address: &str) -> Option<bool> {
    // SAFETY: each pointer is that of as many readable bytes.
    match unsafe { osc_pattern_matches(pattern.as_ptr(), pattern.len(), address.as_ptr(), address.len()) } {
        0 => Some(false),
        1 => Some(true),
        _ => None,
    }
}

#[derive(Clone, Copy, Debug, PartialEq)]
pub enum Argument<'a> {
    Int(i32),
    Long(i64),
    Float(f32),
    Double(f64),
    Time(u64),
    Bool(bool),
    Text(&'a [u8]),
    Blob(&'a [u8]),
    /// A character, a colour or MIDI (`c`, `r`, `m`), with its 32 bits.
    Word(char, u32),
    /// `N`, `I` or an array's bracket.
    Mark(char),
}

fn argument_of<'a>(raw: &RawArgument, message: &'a [u8]) -> Argument<'a> {
    let (place, size) = (raw.place as usize, raw.size as usize);
    match raw.tag as u8 {
        b'i' => Argument::Int(raw.word as i32),
        b'h' => Argument::Long(raw.word as i64),
        b'f' => Argument::Float(f32::from_bits(raw.word as u32)),
        b'd' => Argument::Double(f64::from_bits(raw.word)),
        b't' => Argument::Time(raw.word),
        tag @ (b'T' | b'F') => Argument::Bool(tag == b'T'),
        b's' | b'S' => Argument::Text(&message[place..place + size]),
        b'b' => Argument::Blob(&message[place..place + size]),
        tag @ (b'c' | b'r' | b'm') => Argument::Word(char::from(tag), raw.word as u32),
        tag => Argument::Mark(char::from(tag)),
    }
}

/// The arguments of a message.
pub fn arguments(message: &[u8]) -> Result<Vec<Argument<'_>>, Refused> {
    let mut raw = vec![RawArgument::default(); message.len()];
    // SAFETY: the pointers are those of as many readable bytes and writable arguments.
    let answer = unsafe { osc_message_read(message.as_ptr(), message.len(), raw.as_mut_ptr(), raw.len()) }.accepted()?;
    Ok(raw[..answer.count as usize].iter().map(|it| argument_of(it, message)).collect())
}

fn raw_of(argument: &Argument, texts: &mut Vec<u8>) -> RawArgument {
    let (tag, word, text): (char, u64, &[u8]) = match *argument {
        Argument::Int(number) => ('i', u64::from(number as u32), &[]),
        Argument::Long(number) => ('h', number as u64, &[]),
        Argument::Float(number) => ('f', number.to_bits().into(), &[]),
        Argument::Double(number) => ('d', number.to_bits(), &[]),
        Argument::Time(moment) => ('t', moment, &[]),
        Argument::Bool(is_so) => (if is_so { 'T' } else { 'F' }, 0, &[]),
        Argument::Text(text) => ('s', 0, text),
        Argument::Blob(bytes) => ('b', 0, bytes),
        Argument::Word(tag, word) => (tag, word.into(), &[]),
        Argument::Mark(tag) => (tag, 0, &[]),
    };
    let place = texts.len() as u32;
    texts.extend_from_slice(text);
    RawArgument { word, place, size: text.len() as u32, tag: tag as u32 }
}

/// The bytes of a message, at most 65,504.
pub fn message(pattern: &str, arguments: &[Argument]) -> Result<Vec<u8>, Refused> {
    let mut texts = Vec::new();
    let raw: Vec<RawArgument> = arguments.iter().map(|it| raw_of(it, &mut texts)).collect();
    let mut buffer = vec![0; 65504];
    let (from, to) = (pattern.as_bytes(), buffer.as_mut_slice());
    // SAFETY: each pointer is that of as many bytes or arguments, and nothing else has the buffer.
    let answer = unsafe {
        osc_message_write(from.as_ptr(), from.len(), raw.as_ptr(), raw.len(), texts.as_ptr(), texts.len(), to.as_mut_ptr(), to.len())
    };
    buffer.truncate(answer.accepted()?.count as usize);
    Ok(buffer)
}

/// An open server.
pub struct Server(Handle);

impl Server {
    pub fn open(limits: &Limits) -> Result<Server, Refused> {
        let mut handle = Handle { inside: std::ptr::null_mut(), is_open: false };
        // SAFETY: all zeros are a closed server.
        unsafe { osc_server_open(&mut handle, limits) }.accepted()?;
        Ok(Server(handle))
    }

    /// Adds a method, and answers its id.
    pub fn add(&mut self, address: &str) -> Result<u32, Refused> {
        // SAFETY: here and below the handle is what the library left there, and lent to nobody else; each pointer is that of as
        // many bytes as are named.
        unsafe { osc_server_add(&mut self.0, address.as_ptr(), address.len()) }.accepted().map(|it| it.number)
    }

    /// Removes a method, and answers the id that it had.
    pub fn remove(&mut self, address: &str) -> Result<u32, Refused> {
        unsafe { osc_server_remove(&mut self.0, address.as_ptr(), address.len()) }.accepted().map(|it| it.number)
    }

    /// Queues what the packet has, all or nothing.
    pub fn submit(&mut self, packet: &[u8]) -> Result<Answer, Refused> {
        unsafe { osc_server_submit(&mut self.0, packet.as_ptr(), packet.len()) }.accepted()
    }

    /// Sets the clock. A moment before it is refused.
    pub fn tick(&mut self, moment: u64) -> Result<Answer, Refused> {
        unsafe { osc_server_tick(&mut self.0, moment) }.accepted()
    }

    /// When the next unit is due; none where no unit waits.
    pub fn due(&mut self) -> Option<u64> {
        unsafe { osc_server_due(&mut self.0) }.accepted().map(|it| it.unit).ok()
    }

    /// Does all that is due: hands each call with its message on. Answers when the next unit is due.
    pub fn release_all(&mut self, mut heard: impl FnMut(Call, &[u8])) -> Result<Option<u64>, Refused> {
        let mut buffer = vec![0; 65504];
        loop {
            let released = unsafe { osc_server_release(&mut self.0) };
            if released.status == NOTHING_DUE {
                return Ok(Some(released.unit).filter(|&it| it != 0));
            }
            for _ in 0..released.accepted()?.count {
                let mut call = Call::default();
                unsafe { osc_server_next_call(&mut self.0, &mut call, buffer.as_mut_ptr(), buffer.len()) };
                heard(call, &buffer[..call.size as usize]);
            }
        }
    }

    /// All that happened, for `osc replay`.
    pub fn recording(&mut self) -> Vec<u8> {
        let mut bytes = vec![0; unsafe { osc_server_recorded(&mut self.0) }];
        let size = unsafe { osc_server_read_recording(&mut self.0, 0, bytes.as_mut_ptr(), bytes.len()) };
        bytes.truncate(size);
        bytes
    }
}

impl Drop for Server {
    fn drop(&mut self) {
        unsafe { osc_server_close(&mut self.0) }
    }
}

#[cfg(test)]
mod tests {
    use super::*;

    // docs/FORMATS.md, "Messages".
    const DIM: &[u8] = b"/light/dim\0\0,i\0\0\0\0\0\x07";

    #[test]
    fn a_message_is_written_and_read() {
        assert_eq!(message("/light/dim", &[Argument::Int(7)]).as_deref(), Ok(DIM));
        assert_eq!(arguments(DIM), Ok(vec![Argument::Int(7)]));
        let all = [Argument::Text(b"hello"), Argument::Mark('['), Argument::Double(0.5), Argument::Mark(']'), Argument::Blob(b"abc")];
        assert_eq!(arguments(&message("/a/*", &all).unwrap()), Ok(all.to_vec()));
    }

    #[test]
    fn a_refusal_is_an_error() {
        assert_eq!(check(DIM), Ok(()));
        assert_eq!(check(&DIM[..16]), Err(Refused::BadPacket { kind: 14, place: 16 }));
        assert_eq!(matches("/{foo,bar}/[!a-c]?*", "/foo/dx"), Some(true));
        assert_eq!(matches("/{foo,bar}/[!a-c]?*", "/bar/ab"), Some(false));
        assert_eq!(matches("/[", "/a"), None);
    }

    #[test]
    fn a_server_hears_and_records() {
        let limits = Limits { units: 4, blocks: 8, methods: 2, nodes: 4, recording: 4096, ..Limits::default() };
        let mut server = Server::open(&limits).unwrap();
        let id = server.add("/light/dim").unwrap();
        assert!(server.add("/light/dim").is_err());
        assert_eq!(server.submit(DIM).map(|it| it.count), Ok(1));
        // A message is due at once, at the clock of a new server.
        assert_eq!(server.due(), Some(1));
        let mut heard = Vec::new();
        assert_eq!(server.release_all(|call, message| heard.push((call.method, message.to_vec()))), Ok(None));
        assert_eq!(heard, [(id, DIM.to_vec())]);
        assert_eq!(server.due(), None);
        assert_eq!(server.remove("/light/dim"), Ok(id));
        // The header of 60 bytes, two adds, a submit, a release of one call, a removal: docs/FORMATS.md, "The recording".
        assert_eq!(server.recording().len(), 60 + 2 * (40 + 12) + (52 + 20) + (44 + 8) + (36 + 12));
    }
}
