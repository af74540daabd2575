//! Tests of the program's command line as a call, and of what a machine does by it.
use gravitar::{
    BOARD_LEN, End, Error, Machine, Routine, Run, advance, assemble, command, labels, power_on,
};

const TAPE: &[u8] = b"0 IN3 FB\n500000 IN3 FD\n900000 IN3 FF\n1500000 END\n";
const SHIP: [&[u8]; 2] = [
    include_bytes!("../../../examples/ship/ship.s"),
    include_bytes!("../../../examples/ship/ship.v"),
];

fn ship() -> Vec<u8> {
    assemble(SHIP[0], SHIP[1]).unwrap()
}

fn words(line: &str) -> Vec<&str> {
    line.split(' ').collect()
}

#[test]
fn a_run_is_the_calls_run() {
    let image = ship();
    let files = [("i", &image[..]), ("t", TAPE)];
    let done = command(&words("run i t --save b"), &files).unwrap();
    let run = Run {
        image: &image,
        tape: TAPE,
        timers: false,
    };
    let whole = advance(run, &power_on(), End::Boundary(1_500_000)).unwrap();
    let last = format!("E {}\n", whole.clock);
    assert_eq!((done.status, &done.note[..]), (0, &b""[..]));
    assert_eq!(done.out, [whole.output, last.into_bytes()].concat());
    assert_eq!(done.stores, [("b".to_string(), whole.board)]);
}

#[test]
fn stores_are_in_their_order() {
    let (image, cells) = (ship(), [0; 64]);
    let files = [("i", &image[..]), ("t", TAPE), ("e", &cells[..])];
    let line = words("run i t --cuts 10,20 --save b --earom e");
    let done = command(&line, &files).unwrap();
    let names: Vec<&str> = done.stores.iter().map(|it| &it.0[..]).collect();
    assert_eq!(names, ["b", "b", "b", "e"]);
    assert_eq!(done.stores[0].1[4..12], 10u64.to_le_bytes());
    assert_eq!(done.stores[1].1[4..12], 20u64.to_le_bytes());
    assert_eq!(done.file("b"), Some(&done.stores[2].1[..]));
    assert_eq!((done.file("e"), done.file("x")), (Some(&cells[..]), None));
}

#[test]
fn statuses_and_notes() {
    let jam = assemble(b".org $9000\ns: .byte 2\n.org $FFFC\n.word s\n", b"").unwrap();
    let done = |line: &str, files: &[(&str, &[u8])]| {
        let done = command(&words(line), files).unwrap();
        (done.status, String::from_utf8(done.note).unwrap())
    };
    let good: [(&str, &[u8]); 2] = [("i", &jam), ("t", TAPE)];
    assert_eq!(done("run i t", &good), (3, String::new()));
    assert_eq!(done("asm i", &good).0, 2);
    assert!(done("", &[]).1.starts_with("gravitar: usage: run IMAGE"));
    let short: [(&str, &[u8]); 2] = [("i", &jam[1..]), ("t", TAPE)];
    assert_eq!(
        done("run i t", &short),
        (4, "gravitar: i: length 43007\n".to_string())
    );
    assert_eq!(
        done("run i t", &good[..1]),
        (5, "gravitar: t: absent\n".to_string())
    );
    assert_eq!(command::<&str>(&[], &[]).unwrap().status, 2);
}

#[test]
fn an_answer_longer_than_the_first_buffer() {
    let image = ship();
    let cuts: Vec<String> = (1..=1_000).map(|it| it.to_string()).collect();
    let line = format!("run i t --until 2000 --save b --cuts {}", cuts.join(","));
    for _ in 0..2 {
        let done = command(&words(&line), &[("i", &image), ("t", TAPE)]).unwrap();
        assert_eq!(done.stores.len(), 1_001);
        assert!(done.stores.iter().all(|it| it.1.len() == BOARD_LEN));
    }
}

#[test]
fn a_session_goes_on_where_a_machine_is() {
    let image = ship();
    let names = labels(SHIP[0], SHIP[1]).unwrap();
    for timers in [false, true] {
        let mut machine = Machine::new(image.clone(), timers).unwrap();
        machine.set("IN3", 0xFB).unwrap();
        machine.run(600_001).unwrap();
        let board = machine.save().to_vec();
        let script = "regs\nuntil 700000\nregs\nmem 0010 8\nbreak 905B\ngo\nregs\ngo\n";
        let mut line = words("debug i t s --state b");
        line.extend(timers.then_some("--timers"));
        let files: [(&str, &[u8]); 4] = [
            ("i", &image),
            ("t", b"0 IN3 FB\n1500000 END\n"),
            ("s", script.as_bytes()),
            ("b", &board),
        ];
        let whole = command(&line, &files).unwrap();
        let named = script.replace("905B", "thrust");
        let said = machine.debug(&named, 899_999, &names).unwrap();
        assert_eq!((said.clone().into_bytes(), 0), (whole.out, whole.status));
        assert!(said.contains("stop break 905B at"), "{said}");
        assert_eq!((machine.clock(), machine.save()), (600_001, &board[..]));
        assert!(machine.show().unwrap().starts_with("clock 600001\n"));
        let refused = machine.debug("regs\nbreak nowhere\n", 1, &names);
        assert!(matches!(&refused, Err(Error::Command(done)) if done.status == 4));
        let text = refused.unwrap_err().to_string();
        assert_eq!(text, "status 4: gravitar: s: line 2: command");
    }
}

#[test]
fn a_profile_of_the_next_clocks() {
    let image = ship();
    let mut machine = Machine::new(image.clone(), true).unwrap();
    machine.run(400_000).unwrap();
    let files: [(&str, &[u8]); 3] = [("i", &image), ("t", b"2000000 END"), ("b", machine.save())];
    let line = words("profile i t --state b --until 1000001 --timers");
    let whole = command(&line, &files).unwrap();
    let row = |it: &Routine| {
        let numbers = (it.address, it.entries, it.clocks, it.accesses);
        format!(
            "R {:04X} {} {} {}\n",
            numbers.0, numbers.1, numbers.2, numbers.3
        )
    };
    let text: String = machine.profile(600_001).unwrap().iter().map(row).collect();
    assert!(text.len() > 100 && whole.out.starts_with(text.as_bytes()));
    assert_eq!(machine.clock(), 400_000);
}

#[test]
fn the_names_of_a_source() {
    let source = b"here = $10 ; a byte\nten = 10\nbits=%101\nsum = ten + 1\n.org $9000\nstart:\nfirst:\n  \
        lda #1 ; again: no label\nsecond :\nlast: rts\nend:\n.org $9100\nalone:\n.org $FFFC\nvector: .word \
        start\nbehind:\n";
    let generator = b".org $2800\nlist: cntr\nsub: halt\nstart: rtsl\n";
    let wanted = [
        ("start", 0x9000),
        ("first", 0x9000),
        ("second", 0x9002),
        ("last", 0x9002),
        ("end", 0x9003),
        ("vector", 0xFFFC),
        ("behind", 0xFFFE),
        ("list", 0x2800),
        ("sub", 0x2802),
        ("here", 0x10),
        ("ten", 10),
        ("bits", 5),
    ];
    let wanted: Vec<(String, u16)> = wanted.map(|(name, it)| (name.to_string(), it)).into();
    assert_eq!(labels(source, generator).unwrap(), wanted);
    assert!(matches!(labels(b"???", b""), Err(Error::Command(done)) if done.status == 4));
}
