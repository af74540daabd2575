// Sessions by random keys, compared with the program: logs, boards, samples, looks, byte for byte.
//     node session.mjs PROGRAM [--core FILE] [--seeds N] [--short]
// PROGRAM is gravitar, proved or not. --core is another core.js. --short does less, and ends with
// the first check that fails. The last line is `N passed, M failed`.
import fs from 'node:fs';
import {Checks, HERE, Program, Random, core_of, example, module_bytes, options} from './common.mjs';
import {Play} from './play.mjs';

const words = options({core: true, seeds: true, short: false});
const G = core_of(words.core), library = await G.Library.load(module_bytes());
const program = new Program(words.program), checks = new Checks(words.short ? 1 : Infinity);

// ---- images

function assembled(name, at = undefined) {
    const files = example(name, at);
    const image = library.assemble(...files.map(it => new Uint8Array(fs.readFileSync(it))));
    program.run('asm', ...files, 'it.img');
    checks.same(`asm ${name}`, image, program.get('it.img'));
    return {name, image};
}
const UNDOCUMENTED = new Set([0x80, 0x89, 0x9C, 0x9E, 0x04, 0x0C, 0x14, 0x1C, 0x34, 0x3C, 0x44,
    0x54, 0x5C, 0x64, 0x74, 0x7C, 0xD4, 0xDC, 0xF4, 0xFC, 0x1A, 0x3A, 0x5A, 0x7A, 0xDA, 0xFA]);
const DOCUMENTED = Array.from({length: 256}, (_, i) => i).filter(it =>
    (it & 3) !== 3 && ((it & 15) !== 2 || it === 0xA2) && !UNDOCUMENTED.has(it));
// Bytes by chance, of which most of the program ROM's are documented opcodes.
function random_image(random) {
    const image = random.bytes(G.IMAGE_LEN);
    for (let at = 14336; at < G.IMAGE_LEN; at++)
        if (random.below(16)) image[at] = random.of(DOCUMENTED);
    for (const at of [3, 1]) image[G.IMAGE_LEN - at] = 0x90 + random.below(0x70);
    return image;
}

// ---- comparisons

// The words that give the program the start of a session.
function start_words(session, {board, cells}) {
    const found = session.timers ? ['--timers'] : [];
    if (board) { program.put('it.board', board); found.push('--state', 'it.board'); }
    if (cells) { program.put('it.cells', cells); found.push('--earom', 'it.cells'); }
    return found;
}
function compare_log(name, play, start) {
    const {session} = play, found = start_words(session, start), seen = Buffer.from(play.lines());
    program.put('it.img', session.image);
    program.put('it.tape', play.tape());
    checks.same(`${name}: tape`, session.tape(), play.tape());
    const {output} = program.run('run', 'it.img', 'it.tape', ...found, '--save', 'end.board');
    checks.same(`${name}: log`, G.joined([...session.log()]), output);
    checks.same(`${name}: log that was seen`, seen, output.subarray(0, seen.length));
    const rest = output.subarray(seen.length).toString().split('\n').slice(0, -2);
    checks.holds(`${name}: the log's rest comes later`,
        rest.every(it => Number(it.split(' ')[1]) >= session.clock));
    const end = session.step(session.board, session.clock, {boundary: true}).board;
    checks.same(`${name}: last board`, end, program.get('end.board'));
    if (start.cells) checks.same(`${name}: cells`, G.cells_of(end), program.get('it.cells'));
    checks.same(`${name}: cells of the session`, session.cells(), session.board.slice(196, 260));
    checks.same(`${name}: show`, G.board_text(end), program.run('show', 'end.board').output);
}
// Looks at random clocks. The program stores the boards of its cuts into its output.
function compare_looks(name, play, start) {
    const {session, random} = play, found = start_words(session, start), parts = [];
    const cuts = Array.from({length: 8}, () => play.some_clock()).sort((a, b) => a - b);
    const twice = new Map();
    for (const clock of random.below(2) ? cuts : [...cuts].reverse())
        twice.set(clock, session.look(clock).board);
    cuts.forEach((clock, i) => {
        const {board, records} = session.look(clock, i ? cuts[i - 1] : play.begin);
        checks.same(`${name}: a look twice`, twice.get(clock), board);
        parts.push(G.text(G.lines_of(records)), board);
    });
    const {output} = program.run('run', 'it.img', 'it.tape', ...found, '--cuts', cuts,
        '--save', '/dev/stdout');
    const got = G.joined(parts);
    checks.same(`${name}: looks`, got, output.subarray(0, got.length));
    const few = cuts.slice(0, 3).reverse();
    checks.same(`${name}: seek`, few.map(it => G.board_text(session.look(it).board)).join(''),
        program.run('seek', 'it.img', 'it.tape', few, ...start_words(session, start)).output);
    const pieces = [...session.pieces(cuts[2], cuts[6])].map(it => it.records);
    checks.same(`${name}: pieces`, G.joined(pieces), session.look(cuts[6], cuts[2]).records);
}
function compare_sound(name, play, start) {
    const {session, random} = play, per = 1 + random.below(random.of([40, 65535])), all = [];
    const {output} = program.run('pcm', 'it.img', 'it.tape', per, ...start_words(session, start));
    const called = library.pcm(session.image, session.start, session.tape(), session.clock, per,
        {timers: session.timers});
    checks.same(`${name}: pcm`, called.output, output);
    const levels = new G.Levels(per, play.begin, G.levels_of(session.start));
    for (const {records, clock} of session.pieces())
        for (const sum of levels.sums(records, clock)) all.push(sum);
    const sums = new Uint8Array(Uint32Array.from(all).buffer);
    checks.same(`${name}: sums of levels`, sums, output.subarray(0, sums.length));
    checks.holds(`${name}: all sums`, output.length - sums.length <= 4 * Math.ceil(17 / per));
}
// Samples don't depend on the slices that they are made of.
function compare_samples(name, {session, random, begin}) {
    const end = Math.min(session.clock, begin + 900000), heard = [];
    const whole = new G.Mixer(48000, begin), parts = new G.Mixer(48000, begin);
    for (let at = begin, to; at < end; at = to) {
        to = Math.min(end, at + random.up_to(100000));
        for (const it of parts.mix(session.look(to, at).records, to)) heard.push(it);
    }
    const once = whole.mix(session.look(end, begin).records, end);
    checks.holds(`${name}: samples`, once.length === heard.length &&
        once.every((it, i) => it === heard[i] && Math.abs(it) < 1.2));
}
// The saved files and their command; the tape opened again, watched, and played on.
function compare_saved(name, play) {
    const {session, random} = play, options = {timers: session.timers, board: session.start};
    for (const it of session.files('saved')) program.put(it.name, it.bytes);
    const log = G.joined([...session.log()]);
    checks.same(`${name}: command`, program.shell(session.command('saved')), log);
    const again = new G.Session(library, session.image, {...options, tape: session.tape()});
    const next = new Play(G, checks, random, again);
    checks.holds(`${name}: the tape is playing`, again.is_playing_tape());
    while (again.clock < session.clock && !again.jammed)
        next.seen.push(again.run(Math.min(session.clock, again.clock + 300000)));
    checks.same(`${name}: the tape again`, next.lines(), play.lines());
    checks.holds(`${name}: the tape is over`, !again.is_playing_tape() || again.jammed);
    next.inputs = play.inputs.filter(it => it.clock < session.clock);
    const middle = play.some_clock();
    again.go_back(middle);
    next.forget(middle);
    next.for_clocks(200000);
    return next;
}
function compare(name, play, start) {
    compare_log(name, play, start);
    compare_looks(name, play, start);
    compare_sound(name, play, start);
    compare_samples(name, play);
}

// ---- the tests

function sessions(images, seed) {
    const random = new Random(seed);
    for (const {name, image} of images) {
        let board;
        for (const kinds of [[], ['board'], ['cells'], ['board', 'cells']]) {
            const start = {}, timers = random.below(2) === 1;
            if (kinds.includes('board')) start.board = board;
            if (kinds.includes('cells')) start.cells = random.bytes(G.CELLS_LEN);
            const what = [name, `seed ${seed}`, `timers ${timers}`, ...kinds].join(', ');
            checks.test(what, () => {
                const session = new G.Session(library, image, {...start, timers});
                const play = new Play(G, checks, random, session);
                play.for_clocks(200000 + random.below(1500000));
                board = session.board;
                compare(what, play, start);
                compare(`${what}, opened again`, compare_saved(what, play), {board: session.start});
            });
        }
    }
}
function random_images(seed, count) {
    const random = new Random(seed);
    for (let i = 0; i < count; i++) {
        checks.test(`random image ${i}`, what => {
            const options = {timers: random.below(2) === 1};
            const session = new G.Session(library, random_image(random), options);
            const play = new Play(G, checks, random, session);
            play.for_clocks(2000 + random.below(60000));
            compare_log(what, play, {});
            compare_looks(what, play, {});
        });
    }
}
// What is refused has the program's words.
function refusals(image) {
    const changed = (at, value) => { const it = library.power_on(); it[at] = value; return it; };
    const tape = string => ['tape', image, {tape: G.text(string)}];
    const board = bytes => ['saved board', image, {board: bytes}];
    const cases = [
        ['image', image.subarray(1), {}], ['image', new Uint8Array(G.IMAGE_LEN + 1), {}],
        tape('0 IN9 00\n5 END\n'), tape('5 IN3 00\n4 END\n'), tape('5 IN3 00\n'),
        tape('4 IN0 1\n5 END\n'), tape('1 END\n1 END\n'), tape('281474976710657 END\n'),
        board(changed(0, 9)), board(changed(49, 8)), board(new Uint8Array(7)),
        ['EAROM file', image, {cells: new Uint8Array(65)}],
    ];
    for (const [what, bytes, options] of cases) {
        program.put('bad.img', bytes);
        program.put('bad.tape', options.tape ?? G.text('0 END\n'));
        const {note} = program.run('run', 'bad.img', 'bad.tape', ...start_words({}, options));
        let said = '';
        try { new G.Session(library, bytes, options); } catch (error) { said = error.message; }
        checks.same(`refusal of ${what}`, said, note.trim().replace(/^gravitar: [^:]*/, what));
    }
    const bad = [['lda\n', ''], ['nop\n', ' vctr 1\n'], ['.org 1\n.org\n', ''],
                 ['', '.word 99999\n']];
    for (const sources of bad) {
        ['bad.s', 'bad.v'].forEach((name, i) => program.put(name, sources[i]));
        const {note} = program.run('asm', 'bad.s', 'bad.v', 'bad.img');
        let said = '';
        try { library.assemble(...sources.map(G.text)); } catch (error) { said = error.message; }
        const cause = note.trim().replace(/^gravitar: [^:]*/, '');
        checks.same('refusal of sources', said.replace(/^[^:]*/, ''), cause);
    }
}

const images = [assembled('ports', HERE), assembled('ship')];
if (!words.short) images.push(...['tune', 'score', 'square', 'latch'].map(it => assembled(it)));
checks.test('refusals', () => refusals(images[0].image));
const seeds = words.short ? 1 : Number(words.seeds ?? 2);
for (let seed = 1; seed <= seeds; seed++) sessions(images, seed);
random_images(1, words.short ? 5 : 60 * seeds);
process.exitCode = checks.end();
