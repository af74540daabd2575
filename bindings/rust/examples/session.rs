//! Does a script of the debugger over a board, by the program's command line as a call.
//!     session PROCESSOR.s GENERATOR.v TAPE SCRIPT
//! writes what `gravitar debug` writes, and ends with its status.
use gravitar::{assemble, command};
use std::error::Error;
use std::fs::read;
use std::io::{Write, stderr, stdout};
use std::process::ExitCode;

fn main() -> Result<ExitCode, Box<dyn Error>> {
    let words: Vec<String> = std::env::args().collect();
    let [_, processor, generator, tape, script] = words.as_slice() else {
        return Err("session PROCESSOR.s GENERATOR.v TAPE SCRIPT".into());
    };
    let image = assemble(&read(processor)?, &read(generator)?)?;
    let (tape, script) = (read(tape)?, read(script)?);
    let files: [(&str, &[u8]); 3] = [("i", &image), ("t", &tape), ("s", &script)];
    let done = command(&["debug", "i", "t", "s"], &files)?;
    stdout().write_all(&done.out)?;
    stderr().write_all(&done.note)?;
    Ok(ExitCode::from(done.status))
}
