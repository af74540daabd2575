//! Safe calls of the board. Boards, images, tapes and logs are bytes, and a run that is done in
//! stretches is the run that is done at once. `include/gravitar.h` says it call by call, and these
//! functions keep its rules: a slice has as many bytes as it says, and nothing that is written
//! overlaps anything else.
//!
//! ```no_run
//! # fn main() -> Result<(), Box<dyn std::error::Error>> {
//! let image = gravitar::assemble(&std::fs::read("ship.s")?, &std::fs::read("ship.v")?)?;
//! let mut machine = gravitar::Machine::new(image, false)?;
//! machine.set("IN3", 0xFB)?;
//! for stroke in machine.frame(gravitar::FRAME)? {
//!     println!("{stroke:?}");
//! }
//! std::fs::write("ship.board", machine.save())?;
//! # Ok(())
//! # }
//! ```
mod calls;
mod command;
mod error;
mod labels;
mod machine;

pub use command::{Done, command};
pub use error::{Error, Fault};
pub use labels::labels;
pub use machine::{Machine, PORTS, Routine};

use calls::{Report, StretchCall};
use std::cell::Cell;

/// The bytes of a board, and of an image.
pub const BOARD_LEN: usize = 4356;
pub const IMAGE_LEN: usize = 43_008;
/// No clock is above it.
pub const CLOCK_LIMIT: u64 = 1 << 48;
/// Clocks of a frame, of which there are some 60 in the 1,512,000 clocks of a second.
pub const FRAME: u64 = 25_000;

const RECORD_LEN: usize = 40;
const DONE: u32 = 0;
const JAMMED: u32 = 1;
const NO_ROOM: u32 = 6;

/// What a stretch runs with.
#[derive(Debug, Clone, Copy)]
pub struct Run<'a> {
    pub image: &'a [u8],
    pub tape: &'a [u8],
    /// Whether the POKEYs' timers reach the interrupt line.
    pub timers: bool,
}

/// How far a stretch goes.
#[derive(Debug, Clone, Copy, PartialEq, Eq)]
pub enum End {
    /// To just that clock, inside an instruction too.
    Clock(u64),
    /// To the first boundary between instructions that isn't before that clock.
    Boundary(u64),
}

impl End {
    /// The clock, and `boundary` of `include/gravitar.h`.
    fn numbers(self) -> (u64, u32) {
        match self {
            Self::Clock(clock) => (clock, 0),
            Self::Boundary(clock) => (clock, 1),
        }
    }
}

/// The end of a stretch, and what it put out on the way: lines of the log, records, or samples.
#[derive(Debug, Clone, PartialEq, Eq)]
pub struct Stretch {
    pub board: Vec<u8>,
    pub output: Vec<u8>,
    pub clock: u64,
    /// Whether an undocumented opcode has stopped the processor.
    pub jammed: bool,
}

/// A stroke of the beam, in the last clock of its drawing.
#[derive(Debug, Clone, Copy, PartialEq, Eq)]
pub struct Stroke {
    pub clock: u64,
    pub from: (i32, i32),
    pub to: (i32, i32),
    pub colour: u8,
    pub intensity: u8,
}

/// A record of the board, with the clock in which it came.
#[derive(Debug, Clone, Copy, PartialEq, Eq)]
pub enum Record {
    Stroke(Stroke),
    /// The four levels of POKEY 1 from that clock on, 0 to 15 each.
    Pokey1 {
        clock: u64,
        levels: [u8; 4],
    },
    /// Those of POKEY 2.
    Pokey2 {
        clock: u64,
        levels: [u8; 4],
    },
    /// The byte written to the output latch.
    Latch {
        clock: u64,
        value: u8,
    },
    WatchdogReset {
        clock: u64,
    },
}

impl Record {
    /// The stroke, where it is one.
    pub fn stroke(self) -> Option<Stroke> {
        match self {
            Self::Stroke(stroke) => Some(stroke),
            _ => None,
        }
    }
}

/// The version of the library's calls.
pub fn version() -> u32 {
    // SAFETY: it takes nothing.
    unsafe { calls::gravitar_version() }
}

/// The board at power-on.
pub fn power_on() -> Vec<u8> {
    let mut board = vec![0; BOARD_LEN];
    // SAFETY: the pointer and the length are those of one slice, which nothing else uses meanwhile.
    unsafe { calls::gravitar_power_on(board.as_mut_ptr(), board.len()) };
    board
}

/// The image of a processor's source and a generator's.
pub fn assemble(processor: &[u8], generator: &[u8]) -> Result<Vec<u8>, Error> {
    let (mut image, mut note, mut report) = (vec![0; IMAGE_LEN], [0; 256], Report::default());
    // SAFETY: each pointer and length are those of one slice. The slices that are written are this
    // function's own, so they overlap nothing else. The report has the header's layout.
    let status = unsafe {
        calls::gravitar_assemble(
            processor.as_ptr(),
            processor.len(),
            generator.as_ptr(),
            generator.len(),
            image.as_mut_ptr(),
            image.len(),
            note.as_mut_ptr(),
            note.len(),
            &mut report,
        )
    };
    if status == DONE {
        Ok(image)
    } else {
        Err(refusal(status, &report, &note))
    }
}

/// Runs from a board, and gives the lines of the log on the way.
pub fn advance(run: Run<'_>, board: &[u8], end: End) -> Result<Stretch, Error> {
    let (clock, boundary) = end.numbers();
    stretch(calls::gravitar_advance, run, board, clock, boundary)
}

/// Runs from a board as `advance` does, and gives the records on the way, 40 bytes each:
/// `record_list` reads them.
pub fn records(run: Run<'_>, board: &[u8], end: End) -> Result<Stretch, Error> {
    let (clock, boundary) = end.numbers();
    stretch(calls::gravitar_records, run, board, clock, boundary)
}

/// The records of the output of `records`.
pub fn record_list(output: &[u8]) -> impl Iterator<Item = Record> + '_ {
    output.chunks_exact(RECORD_LEN).filter_map(record)
}

/// The record of its bytes, where it is of a kind that the header of this crate's version has.
fn record(bytes: &[u8]) -> Option<Record> {
    let (clock, words) = bytes.split_first_chunk()?;
    let clock = u64::from_le_bytes(*clock);
    let [kind, a, b, c, d, e, f] = std::array::from_fn(|index| {
        let at = 4 * index;
        i32::from_le_bytes([words[at], words[at + 1], words[at + 2], words[at + 3]])
    });
    let levels = [a, b, c, d].map(|level| level as u8);
    Some(match kind {
        0 => Record::Stroke(Stroke {
            clock,
            from: (a, b),
            to: (c, d),
            colour: e as u8,
            intensity: f as u8,
        }),
        1 => Record::Pokey1 { clock, levels },
        2 => Record::Pokey2 { clock, levels },
        3 => Record::Latch {
            clock,
            value: a as u8,
        },
        4 => Record::WatchdogReset { clock },
        _ => return None,
    })
}

/// Runs from a board to the first boundary that isn't before a clock, and gives a sample for each
/// `per` clocks, four bytes with the lowest first.
pub fn pcm(run: Run<'_>, board: &[u8], clock: u64, per: u16) -> Result<Stretch, Error> {
    stretch(calls::gravitar_pcm, run, board, clock, per.into())
}

/// The strokes of a log.
pub fn strokes(log: &[u8]) -> impl Iterator<Item = Stroke> + '_ {
    log.split(|byte| *byte == b'\n').filter_map(stroke)
}

/// The stroke of a line, where it is one.
fn stroke(line: &[u8]) -> Option<Stroke> {
    let mut words = std::str::from_utf8(line)
        .ok()?
        .strip_prefix("S ")?
        .split(' ');
    let clock = words.next()?.parse().ok()?;
    let mut number = || words.next()?.parse::<i32>().ok();
    Some(Stroke {
        clock,
        from: (number()?, number()?),
        to: (number()?, number()?),
        colour: number()?.try_into().ok()?,
        intensity: number()?.try_into().ok()?,
    })
}

/// Makes a call that runs.
fn stretch(
    call: StretchCall,
    run: Run<'_>,
    board: &[u8],
    clock: u64,
    number: u32,
) -> Result<Stretch, Error> {
    let mut board = board.to_vec();
    let (status, report, output) = answer(&STRETCH_ROOM, |output, report| {
        // SAFETY: as in `assemble`.
        unsafe {
            call(
                run.image.as_ptr(),
                run.image.len(),
                board.as_mut_ptr(),
                board.len(),
                run.tape.as_ptr(),
                run.tape.len(),
                clock,
                number,
                run.timers.into(),
                output.as_mut_ptr(),
                output.len(),
                report,
            )
        }
    });
    match status {
        DONE | JAMMED => Ok(Stretch {
            board,
            output,
            clock: report.clock,
            jammed: status == JAMMED,
        }),
        _ => Err(refusal(status, &report, &output)),
    }
}

thread_local! {
    /// The room that this thread's last call of a run had, and that of its last command line.
    static STRETCH_ROOM: Cell<usize> = const { Cell::new(1 << 16) };
    static COMMAND_ROOM: Cell<usize> = const { Cell::new(1 << 20) };
}

/// No more room than this is kept for the next call.
const KEPT_ROOM: usize = 1 << 26;

/// The status of a call that writes to a buffer, its report, and what it wrote. A buffer that is
/// too short is at least doubled, the call is made again, and the thread's next call begins with as
/// much room.
fn answer(
    kept: &'static std::thread::LocalKey<Cell<usize>>,
    mut call: impl FnMut(&mut [u8], &mut Report) -> u32,
) -> (u32, Report, Vec<u8>) {
    let mut room = kept.get();
    loop {
        let (mut output, mut report) = (vec![0; room], Report::default());
        let status = call(&mut output, &mut report);
        let used = usize::try_from(report.used).unwrap_or(usize::MAX);
        if status == NO_ROOM {
            room = used.max(2 * room);
            continue;
        }
        output.truncate(used);
        output.shrink_to_fit();
        kept.set(room.min(KEPT_ROOM));
        return (status, report, output);
    }
}

/// The error of a status. The buffer has as many bytes of the words as there was room for.
fn refusal(status: u32, report: &Report, buffer: &[u8]) -> Error {
    let len = buffer.len().min(report.used as usize);
    Error::new(status, report.place, &buffer[..len])
}
