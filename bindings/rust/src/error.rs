//! What the library refuses.
use crate::Done;
use std::fmt;

/// Where bytes are wrong, as `include/gravitar.h` has it for the status, and the words of it.
#[derive(Debug, Clone, PartialEq, Eq)]
pub struct Fault {
    pub place: u64,
    pub words: String,
}

/// Why a call did nothing.
#[derive(Debug, Clone, PartialEq, Eq)]
#[non_exhaustive]
pub enum Error {
    Image(Fault),
    /// A field of a saved board is out of its range.
    Board(Fault),
    BoardLength(Fault),
    BoardVersion(Fault),
    Tape(Fault),
    /// A clock above 2^48, or a sample of no clock or of more than 65,535.
    Number(u64),
    /// A request isn't well formed at this offset. `command` makes no such request.
    Request(u64),
    /// A command that a `Machine` did by the program's command line ended with another status than
    /// 0.
    Command(Done),
    NoMemory,
    ProcessorSource(Fault),
    GeneratorSource(Fault),
    /// A status that the header of this crate's version doesn't have.
    Status(u32),
}

impl Error {
    pub(crate) fn new(status: u32, place: u64, words: &[u8]) -> Self {
        let fault = Fault {
            place,
            words: String::from_utf8_lossy(words).into_owned(),
        };
        match status {
            2 => Self::Image(fault),
            3 => Self::Board(fault),
            4 => Self::Tape(fault),
            5 => Self::Number(place),
            7 => Self::NoMemory,
            8 => Self::ProcessorSource(fault),
            9 => Self::GeneratorSource(fault),
            10 => Self::BoardLength(fault),
            11 => Self::BoardVersion(fault),
            12 => Self::Request(place),
            _ => Self::Status(status),
        }
    }
}

impl fmt::Display for Error {
    fn fmt(&self, f: &mut fmt::Formatter<'_>) -> fmt::Result {
        match self {
            Self::Image(fault) => write!(f, "image: {}", fault.words),
            Self::Board(fault) | Self::BoardLength(fault) | Self::BoardVersion(fault) => {
                write!(f, "board: {}", fault.words)
            }
            Self::Tape(fault) => write!(f, "tape: {}", fault.words),
            Self::Number(number) => write!(f, "{number} is out of range"),
            Self::Request(place) => write!(f, "request: byte {place}"),
            Self::Command(done) => {
                let note = String::from_utf8_lossy(&done.note);
                write!(f, "status {}: {}", done.status, note.trim_end())
            }
            Self::NoMemory => write!(f, "no memory"),
            Self::ProcessorSource(fault) => write!(f, "processor source: {}", fault.words),
            Self::GeneratorSource(fault) => write!(f, "generator source: {}", fault.words),
            Self::Status(status) => write!(f, "status {status}"),
        }
    }
}

impl std::error::Error for Error {}
