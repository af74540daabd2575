//! Assembles two sources, and runs their board a frame at a time: its log goes to the output.
//!     frames PROCESSOR.s GENERATOR.v TAPE CLOCK
use gravitar::{End, FRAME, Run, advance, assemble, power_on, version};
use std::error::Error;
use std::fs::read;
use std::io::Write;

fn main() -> Result<(), Box<dyn Error>> {
    assert_eq!(version(), 3);
    let words: Vec<String> = std::env::args().collect();
    let [_, processor, generator, tape, last] = words.as_slice() else {
        return Err("frames PROCESSOR.s GENERATOR.v TAPE CLOCK".into());
    };
    let image = assemble(&read(processor)?, &read(generator)?)?;
    let (tape, last) = (read(tape)?, last.parse::<u64>()?);
    let run = Run {
        image: &image,
        tape: &tape,
        timers: false,
    };
    let (mut board, mut clock) = (power_on(), 0);
    while clock < last {
        let stretch = advance(run, &board, End::Boundary(last.min(clock + FRAME)))?;
        std::io::stdout().write_all(&stretch.output)?;
        if stretch.jammed {
            break;
        }
        (board, clock) = (stretch.board, stretch.clock);
    }
    Ok(())
}
