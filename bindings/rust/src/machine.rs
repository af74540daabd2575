//! A board that runs.
use crate::{
    CLOCK_LIMIT, Done, End, Error, Fault, Record, Run, Stretch, Stroke, advance, command, pcm,
    power_on, record_list, records,
};

/// The ports that `Machine::set` takes.
pub const PORTS: [&str; 19] = [
    "IN0", "IN3", "IN4", "P0", "P1", "P2", "P3", "P4", "P5", "P6", "P7", "Q0", "Q1", "Q2", "Q3",
    "Q4", "Q5", "Q6", "Q7",
];

/// A line of `gravitar profile`: where a routine begins, how often it was entered, and its own
/// clocks and accesses of devices.
#[derive(Debug, Clone, Copy, PartialEq, Eq)]
pub struct Routine {
    pub address: u16,
    pub entries: u64,
    pub clocks: u64,
    pub accesses: u64,
}

/// An image, the board that runs it, and the inputs to come.
///
/// `show`, `debug` and `profile` look at the board, or at the clocks to come, and leave it where it
/// is.
#[derive(Debug, Clone)]
pub struct Machine {
    image: Vec<u8>,
    board: Vec<u8>,
    timers: bool,
    clock: u64,
    jammed: bool,
    changes: String,
}

impl Machine {
    /// At power-on. With `timers` the POKEYs' timers reach the interrupt line.
    pub fn new(image: Vec<u8>, timers: bool) -> Result<Self, Error> {
        let mut machine = Self {
            image,
            board: Vec::new(),
            timers,
            clock: 0,
            jammed: false,
            changes: String::new(),
        };
        machine.load(&power_on())?;
        Ok(machine)
    }

    /// The clocks that the board has done.
    pub fn clock(&self) -> u64 {
        self.clock
    }

    /// Whether an undocumented opcode has stopped the processor.
    pub fn is_jammed(&self) -> bool {
        self.jammed
    }

    /// The board, as `gravitar run --save` has it.
    pub fn save(&self) -> &[u8] {
        &self.board
    }

    /// Goes on from a board. Inputs that were set and not yet run are dropped.
    pub fn load(&mut self, board: &[u8]) -> Result<(), Error> {
        let stretch = advance(self.over("0 END\n"), board, End::Clock(0))?;
        self.take(stretch);
        Ok(())
    }

    /// Sets a port, such as `IN3`, from the next clock on.
    pub fn set(&mut self, port: &str, value: u8) -> Result<(), Error> {
        if !PORTS.contains(&port) {
            let words = format!("{port:?} names no port");
            return Err(Error::Tape(Fault { place: 1, words }));
        }
        self.changes += &format!("{} {port} {value:02X}\n", self.clock);
        Ok(())
    }

    /// Runs that many clocks, and returns the log on the way.
    pub fn run(&mut self, clocks: u64) -> Result<Vec<u8>, Error> {
        let end = self.clock.saturating_add(clocks);
        let stretch = advance(self.over(&self.inputs(end)), &self.board, End::Clock(end))?;
        Ok(self.take(stretch))
    }

    /// Runs that many clocks, and returns the records on the way.
    pub fn records(&mut self, clocks: u64) -> Result<Vec<Record>, Error> {
        let end = self.clock.saturating_add(clocks);
        let stretch = records(self.over(&self.inputs(end)), &self.board, End::Clock(end))?;
        Ok(record_list(&self.take(stretch)).collect())
    }

    /// Runs that many clocks, and returns the strokes on the way.
    pub fn frame(&mut self, clocks: u64) -> Result<Vec<Stroke>, Error> {
        let records = self.records(clocks)?.into_iter();
        Ok(records.filter_map(Record::stroke).collect())
    }

    /// Runs `count` times `per` clocks, and returns a sample for each `per` of them, so that
    /// nothing is left out between two calls. It takes two runs: one for the samples and one for
    /// the board.
    pub fn samples(&mut self, count: usize, per: u16) -> Result<Vec<u32>, Error> {
        let clocks = (count as u64).saturating_mul(per.into());
        let end = self.clock.saturating_add(clocks);
        let heard = pcm(self.over(&self.inputs(end)), &self.board, end, per)?;
        self.run(clocks)?;
        let samples = heard.output.chunks_exact(4).take(count);
        Ok(samples
            .map(|it| u32::from_le_bytes([it[0], it[1], it[2], it[3]]))
            .collect())
    }

    /// The text of the board, as `gravitar show` has it.
    pub fn show(&self) -> Result<String, Error> {
        done(command(&["show", "b"], &[("b", &self.board)])?)
    }

    /// What a script of the debugger prints (docs/DEBUGGER.md), from the board on. `go` ends after
    /// so many clocks. With the names of `labels` a script may have `break thrust` for `break
    /// 9123`.
    pub fn debug(
        &self,
        script: &str,
        clocks: u64,
        names: &[(String, u16)],
    ) -> Result<String, Error> {
        let tape = self.inputs(self.clock.saturating_add(clocks).min(CLOCK_LIMIT));
        let script = with_addresses(script, names);
        self.ahead("debug", &tape, &["s"], &script)
    }

    /// Where the next clocks go, routine by routine, by `gravitar profile`.
    pub fn profile(&self, clocks: u64) -> Result<Vec<Routine>, Error> {
        let end = self.clock.saturating_add(clocks);
        let tape = self.inputs(end.saturating_add(8).min(CLOCK_LIMIT));
        let text = self.ahead("profile", &tape, &["--until", &end.to_string()], "")?;
        Ok(text.lines().filter_map(routine).collect())
    }

    /// The output of a command that begins at the board and stores nothing.
    fn ahead(&self, verb: &str, tape: &str, words: &[&str], script: &str) -> Result<String, Error> {
        let mut line = vec![verb, "i", "t"];
        line.extend(words);
        line.extend(["--state", "b"]);
        if self.timers {
            line.push("--timers");
        }
        let files: [(&str, &[u8]); 4] = [
            ("i", &self.image),
            ("t", tape.as_bytes()),
            ("s", script.as_bytes()),
            ("b", &self.board),
        ];
        done(command(&line, &files)?)
    }

    fn over<'a>(&'a self, tape: &'a str) -> Run<'a> {
        Run {
            image: &self.image,
            tape: tape.as_bytes(),
            timers: self.timers,
        }
    }

    fn inputs(&self, end: u64) -> String {
        format!("{}{end} END\n", self.changes)
    }

    fn take(&mut self, stretch: Stretch) -> Vec<u8> {
        self.board = stretch.board;
        self.clock = stretch.clock;
        self.jammed = stretch.jammed;
        self.changes.clear();
        stretch.output
    }
}

/// The output of a command that ended with status 0.
fn done(done: Done) -> Result<String, Error> {
    match done.status {
        0 => Ok(String::from_utf8_lossy(&done.out).into_owned()),
        _ => Err(Error::Command(done)),
    }
}

fn routine(line: &str) -> Option<Routine> {
    let mut words = line.strip_prefix("R ")?.split(' ');
    let address = u16::from_str_radix(words.next()?, 16).ok()?;
    let mut number = || words.next()?.parse().ok();
    Some(Routine {
        address,
        entries: number()?,
        clocks: number()?,
        accesses: number()?,
    })
}

/// A script with addresses in the place of names. Four hexadecimal digits stay an address.
fn with_addresses(script: &str, names: &[(String, u16)]) -> String {
    let is_address = |word: &str| word.len() == 4 && word.bytes().all(|it| it.is_ascii_hexdigit());
    let changed = |line: &str| {
        let mut words: Vec<&str> = line.split(' ').collect();
        let takes_one = matches!(words[0], "break" | "watch" | "mem" | "dis" | "vdis");
        let word = words.get(1).filter(|word| takes_one && !is_address(word));
        let named = word.and_then(|word| names.iter().find(|it| it.0 == *word));
        let Some(address) = named.map(|it| format!("{:04X}", it.1)) else {
            return line.to_string();
        };
        words[1] = &address;
        words.join(" ")
    };
    script
        .split('\n')
        .map(changed)
        .collect::<Vec<_>>()
        .join("\n")
}
