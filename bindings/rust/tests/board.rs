//! Tests over the examples' sources.
use gravitar::{
    BOARD_LEN, CLOCK_LIMIT, End, Error, FRAME, Machine, PORTS, Record, Run, advance, assemble,
    command, pcm, power_on, record_list, records, strokes, version,
};

const TAPE: &[u8] = b"2000000 END\n";

macro_rules! source {
    ($name:literal) => {
        include_bytes!(concat!("../../../examples/", $name))
    };
}

fn square() -> Vec<u8> {
    assemble(source!("square/square.s"), source!("square/square.v")).unwrap()
}

fn ship() -> Vec<u8> {
    assemble(source!("ship/ship.s"), source!("ship/ship.v")).unwrap()
}

/// A board with records of each kind.
fn kinds() -> Vec<u8> {
    assemble(source!("embed/kinds.s"), source!("embed/kinds.v")).unwrap()
}

/// The line that the log has of a record.
fn line(record: Record) -> String {
    let levels = |[a, b, c, d]: [u8; 4]| format!("{a} {b} {c} {d}");
    match record {
        Record::Stroke(it) => format!(
            "S {} {} {} {} {} {} {}\n",
            it.clock, it.from.0, it.from.1, it.to.0, it.to.1, it.colour, it.intensity
        ),
        Record::Pokey1 { clock, levels: it } => format!("A {clock} {}\n", levels(it)),
        Record::Pokey2 { clock, levels: it } => format!("B {clock} {}\n", levels(it)),
        Record::Latch { clock, value } => format!("L {clock} {value:02X}\n"),
        Record::WatchdogReset { clock } => format!("W {clock}\n"),
    }
}

fn over<'a>(image: &'a [u8], tape: &'a [u8]) -> Run<'a> {
    Run {
        image,
        tape,
        timers: false,
    }
}

#[test]
fn the_version_is_the_headers() {
    let header = include_str!("../../../include/gravitar.h");
    assert!(header.contains(&format!("#define GRAVITAR_VERSION {}\n", version())));
    assert_eq!(power_on().len(), BOARD_LEN);
    let package = env!("CARGO_PKG_VERSION_MAJOR");
    assert_eq!(package, version().to_string());
}

#[test]
fn timers_interrupt_where_they_are_wired() {
    let image = assemble(source!("embed/timers.s"), source!("embed/kinds.v")).unwrap();
    let tape = b"300000 END\n";
    let files: [(&str, &[u8]); 2] = [("i", &image), ("t", tape)];
    let run = Run {
        image: &image,
        tape,
        timers: true,
    };
    let done = command(&["run", "i", "t", "--timers", "--save", "b"], &files).unwrap();
    let heard = command(&["pcm", "i", "t", "34", "--timers"], &files).unwrap();
    let end = End::Boundary(300_000);
    let whole = advance(run, &power_on(), end).unwrap();
    let log = String::from_utf8(whole.output).unwrap();
    assert_eq!(format!("{log}E {}\n", whole.clock).into_bytes(), done.out);
    assert_eq!(done.file("b"), Some(&whole.board[..]));
    let with = records(run, &power_on(), end).unwrap();
    assert_eq!(record_list(&with.output).map(line).collect::<String>(), log);
    assert_eq!(with.board, whole.board);
    let samples = pcm(run, &power_on(), 300_000, 34).unwrap();
    assert_eq!((samples.output, &samples.board), (heard.out, &whole.board));
    // Each interrupt writes the latch and counts in the last byte of the vector RAM, the last of a
    // board.
    let count = log.lines().filter(|it| it.starts_with('L')).count();
    assert!(count > 100 && usize::from(whole.board[BOARD_LEN - 1]) == count % 256);
    // Without them there is only the divider's request, once in 6,144 clocks.
    let without = Run {
        timers: false,
        ..run
    };
    let without = advance(without, &power_on(), end).unwrap();
    assert_eq!(without.board[BOARD_LEN - 1], 48);
    let mut machine = Machine::new(image, true).unwrap();
    let parts: Vec<u8> = [1, 99_999, 200_000]
        .into_iter()
        .flat_map(|clocks| machine.run(clocks).unwrap())
        .collect();
    assert_eq!(parts, log.as_bytes()[..parts.len()]);
    assert_eq!(machine.save()[BOARD_LEN - 1], whole.board[BOARD_LEN - 1]);
}

#[test]
fn the_place_of_a_bad_line() {
    let image = square();
    for lines in [1, 2, 3, 1_000] {
        let tape = "0 IN3 FF\n".repeat(lines - 1) + "0 IN9 FF\n1 END\n";
        let run = over(&image, tape.as_bytes());
        let wanted = (lines as u64, format!("line {lines}: port"));
        for refused in [
            advance(run, &power_on(), End::Clock(1)),
            records(run, &power_on(), End::Clock(1)),
            pcm(run, &power_on(), 1, 34),
        ] {
            let Err(Error::Tape(fault)) = refused else {
                panic!("it isn't refused");
            };
            assert_eq!((fault.place, fault.words), wanted);
        }
    }
}

#[test]
fn only_ports_are_set() {
    let mut machine = Machine::new(square(), false).unwrap();
    for port in ["IN3 FF\n0 IN4", "in3", "IN3 ", "", "P8"] {
        let refused = machine.set(port, 0).unwrap_err().to_string();
        assert_eq!(refused, format!("tape: {port:?} names no port"));
    }
    for port in PORTS {
        machine.set(port, 0xFF).unwrap();
    }
    machine.run(1).unwrap();
}

#[test]
fn stretches_are_the_run() {
    let image = square();
    let whole = advance(over(&image, TAPE), &power_on(), End::Clock(160_000)).unwrap();
    let mut machine = Machine::new(image, false).unwrap();
    let mut log = Vec::new();
    for clocks in [1, 24_999, 100_000, 35_000] {
        log.extend(machine.run(clocks).unwrap());
    }
    assert_eq!(
        (machine.save(), log, machine.clock()),
        (&whole.board[..], whole.output, 160_000)
    );
    assert!(!machine.is_jammed());
}

#[test]
fn a_log_longer_than_the_first_buffer() {
    let log = Machine::new(ship(), false).unwrap().run(5_000_000).unwrap();
    assert!(log.len() > 65_536);
    let mut machine = Machine::new(ship(), false).unwrap();
    let frames: Vec<u8> = (0..200).flat_map(|_| machine.run(FRAME).unwrap()).collect();
    assert_eq!(frames, log);
}

#[test]
fn a_frame_has_strokes() {
    let mut machine = Machine::new(square(), false).unwrap();
    let frames: Vec<_> = (0..4).flat_map(|_| machine.frame(FRAME).unwrap()).collect();
    let log = Machine::new(square(), false)
        .unwrap()
        .run(4 * FRAME)
        .unwrap();
    assert_eq!(frames, strokes(&log).collect::<Vec<_>>());
    assert_eq!(
        frames.len(),
        log.iter().filter(|byte| **byte == b'S').count()
    );
    assert!(!frames.is_empty());
}

#[test]
fn records_are_the_lines_of_the_log() {
    for image in [ship(), kinds()] {
        let mut machine = Machine::new(image, false).unwrap();
        machine.set("IN3", 0xFB).unwrap();
        let mut other = machine.clone();
        for clocks in [1, 24_999, 100_000, 3_000_000] {
            let records = machine.records(clocks).unwrap();
            let lines: String = records.into_iter().map(line).collect();
            assert_eq!(lines.into_bytes(), other.run(clocks).unwrap());
            assert_eq!(machine.save(), other.save());
            assert_eq!(machine.clock(), other.clock());
        }
    }
    let records = Machine::new(kinds(), false)
        .unwrap()
        .records(100_000)
        .unwrap();
    for kind in ["S ", "A ", "B ", "L ", "W "] {
        assert!(
            records.iter().any(|it| line(*it).starts_with(kind)),
            "{kind}"
        );
    }
}

#[test]
fn a_saved_board_goes_on() {
    let mut machine = Machine::new(ship(), false).unwrap();
    machine.run(100_001).unwrap();
    let saved = machine.save().to_vec();
    let log = machine.run(100_000).unwrap();
    machine.load(&saved).unwrap();
    assert_eq!(machine.clock(), 100_001);
    assert_eq!(machine.run(100_000).unwrap(), log);
}

#[test]
fn inputs_are_those_of_a_tape() {
    let mut machine = Machine::new(ship(), false).unwrap();
    let mut log = Vec::new();
    for value in [0xFB, 0xFD, 0xFF] {
        machine.set("IN3", value).unwrap();
        log.extend(machine.run(500_000).unwrap());
    }
    let (image, tape) = (
        ship(),
        b"0 IN3 FB\n500000 IN3 FD\n1000000 IN3 FF\n1500000 END\n",
    );
    let run = advance(over(&image, tape), &power_on(), End::Clock(1_500_000)).unwrap();
    assert_eq!((run.output, &run.board[..]), (log, machine.save()));
}

#[test]
fn samples_leave_nothing_out() {
    let (image, tape) = (ship(), b"0 IN3 FB\n2000000 END\n");
    let whole = pcm(over(&image, tape), &power_on(), 1_394_000, 34)
        .unwrap()
        .output;
    let mut machine = Machine::new(image, false).unwrap();
    machine.set("IN3", 0xFB).unwrap();
    let mut some = Vec::new();
    for count in [1, 735, 40_000, 264] {
        some.extend(machine.samples(count, 34).unwrap());
    }
    let bytes: Vec<u8> = some.iter().flat_map(|it| it.to_le_bytes()).collect();
    assert_eq!(bytes, whole[..4 * 41_000]);
    assert!(some.iter().any(|it| *it > 0));
}

#[test]
fn a_jam_is_told() {
    let image = assemble(b".org $9000\ns: .byte 2\n.org $FFFC\n.word s\n", b"").unwrap();
    let mut machine = Machine::new(image, false).unwrap();
    machine.run(1_000).unwrap();
    assert!(machine.is_jammed() && machine.clock() < 1_000);
}

#[test]
fn what_is_refused_is_an_error() {
    let (image, board) = (square(), power_on());
    let to = |image, board, tape, clock| advance(over(image, tape), board, End::Boundary(clock));
    assert!(matches!(to(b"short", &board, TAPE, 1), Err(Error::Image(fault)) if fault.place == 5));
    assert!(matches!(
        to(&image, &board[1..], TAPE, 1),
        Err(Error::BoardLength(_))
    ));
    assert!(matches!(
        to(&image, b"", TAPE, 1),
        Err(Error::BoardLength(_))
    ));
    assert!(matches!(to(&image, &board, b"", 1), Err(Error::Tape(_))));
    let tape = to(&image, &board, b"1 IN9 00\n1 END\n", 1).unwrap_err();
    assert!(matches!(&tape, Error::Tape(fault) if fault.place == 1 && tape.to_string().len() > 6));
    let late = CLOCK_LIMIT + 1;
    assert_eq!(to(&image, &board, TAPE, late), Err(Error::Number(late)));
    assert_eq!(pcm(over(&image, TAPE), &board, 1, 0), Err(Error::Number(0)));
    assert!(matches!(
        assemble(b"nop\n???\n", b""),
        Err(Error::ProcessorSource(_))
    ));
    assert!(matches!(
        assemble(b"", b"???\n"),
        Err(Error::GeneratorSource(_))
    ));
}

#[test]
fn a_refusal_leaves_the_machine_as_it_was() {
    assert!(matches!(
        Machine::new(Vec::new(), false),
        Err(Error::Image(_))
    ));
    let mut machine = Machine::new(square(), false).unwrap();
    assert!(matches!(machine.load(b""), Err(Error::BoardLength(_))));
    assert!(matches!(machine.set("IN9", 0), Err(Error::Tape(_))));
    assert!(matches!(
        machine.run(u64::MAX),
        Err(Error::Number(_) | Error::Tape(_))
    ));
    assert_eq!(
        machine
            .run(160_000)
            .unwrap()
            .split(|byte| *byte == b'\n')
            .count(),
        57
    );
}
