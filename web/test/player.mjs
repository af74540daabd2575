// What the page is made of, without a browser: the clocks of keys, pauses and ways back, looks,
// tapes, pots, pictures, logs and files. Times are given, so each run is the same.
//     node web/test/player.mjs
// WEB names another folder of the page. The last line is `N passed, M failed`.
import {createRequire} from 'node:module';
import {readFileSync} from 'node:fs';
import {dirname, join, resolve} from 'node:path';
import {fileURLToPath} from 'node:url';

const WEB = resolve(process.env.WEB ?? dirname(dirname(fileURLToPath(import.meta.url))));
const require = createRequire(import.meta.url), load = name => require(join(WEB, name));
const Gravitar = globalThis.Gravitar = load('core.js');
Object.assign(globalThis, load('picture.js'), load('controls.js'));
const {Player} = load('player.js'), {read_log} = load('log.js'), files = load('files.js');
const {SampleQueue, Speaker, wav_of} = load('sound.js'), EXAMPLES = load('examples.js');
const {strokes_in, strokes_seen, svg_of, Placement, PICTURE, LAYOUTS, control,
    byte_for} = globalThis;

const script = readFileSync(join(WEB, 'module.js'), 'utf8');
const library = await Gravitar.Library.load(new Function(`${script}; return GRAVITAR_MODULE`)());
const sources = EXAMPLES.ship;
const SHIP = library.assemble(Gravitar.text(sources.processor), Gravitar.text(sources.generator));

let passed = 0, failed = 0;
function equal(got, want, what = 'it') {
    const [a, b] = [got, want].map(it => JSON.stringify(it));
    if (a !== b) throw new Error(`${what}: got ${a}, want ${b}`);
}
function check(name, doing) {
    try {
        doing();
        passed++;
    } catch (error) {
        failed++;
        console.log(`FAILED: ${name}: ${error.message}`);
    }
}
function new_player(options = {}) {
    const heard = [], player = new Player(library,
        {hears: (records, clock) => heard.push({records, clock}),
            breaks: () => heard.push('break')});
    player.controls = LAYOUTS.ship.controls;
    player.seen = [];
    player.begin(SHIP, options);
    player.heard = heard;
    return player;
}
const inputs = player =>
    player.session.inputs.map(it => `${it.clock} ${it.port} ${Gravitar.hex(it.value, 2)}`);
const tape_of = player => Gravitar.string_of(player.session.tape());
// A minute of a game in frames of 16 ms, with keys at fixed times.
function played() {
    const player = new_player();
    let now = 0;
    player.go(now);
    for (let frame = 0; frame < 120; frame++) {
        if (frame % 17 === 3) player.move('ArrowUp', 1, now + 3);
        if (frame % 17 === 9) player.move('ArrowUp', 0, now + 11);
        if (frame % 23 === 5) player.move('ArrowRight', 1, now + 1);
        if (frame % 23 === 8) player.move('ArrowRight', 0, now + 15);
        player.frame(now += 16);
    }
    return player;
}
function seen_log(player) { return Gravitar.lines_of(Gravitar.joined(player.seen)); }
// What the library makes of the tape at once, from the board where the run began.
function whole_log(player) {
    const {session} = player, options = {timers: session.timers};
    const it = library.advance(SHIP, session.start, session.tape(), session.clock, options);
    return Gravitar.string_of(it.output);
}

// ---- the clocks of keys

check('a key has the clock of its time', () => {
    const player = new_player();
    player.go(1000);
    player.move('ArrowUp', 1, 1004);
    player.move('ArrowUp', 0, 1010);
    player.frame(1016);
    equal(player.session.clock, 24192, 'the clock of the frame');
    equal(inputs(player), ['6048 IN3 FB', '15120 IN3 FF']);
});
check('after a stall keys keep their shares', () => {
    const player = new_player();
    player.go(0);
    player.move('ArrowUp', 1, 100);
    player.move('ArrowUp', 0, 200);
    player.frame(500);
    equal(player.session.clock, 151200, 'a tenth of a second');
    equal(inputs(player), ['30240 IN3 FB', '60480 IN3 FF']);
});
check('a key of before or after the frame is in it', () => {
    const player = new_player();
    player.go(100);
    player.frame(116);
    player.move('ArrowUp', 1, 90);
    player.move('ArrowUp', 0, 500);
    player.frame(132);
    equal(inputs(player), ['24192 IN3 FB', '48383 IN3 FF']);
});
check('keys out of order lose none', () => {
    const player = new_player();
    player.go(0);
    player.move('ArrowUp', 1, 12);
    player.move('ArrowLeft', 1, 4);
    player.frame(16);
    equal(inputs(player), ['18144 IN3 FB', '18144 IN3 FA']);
});
check('slower and faster', () => {
    const player = new_player();
    player.speed = 1 / 64;
    player.go(0);
    player.move('ArrowUp', 1, 8);
    for (let now = 17; now <= 170; now += 17) player.frame(now);
    equal(player.session.clock, 4016, 'no clock is lost to rounding');
    equal(inputs(player), ['188 IN3 FB']);
    player.speed = 8;
    player.frame(186);
    equal(player.session.clock, 4016 + 193536);
});
check('a press that changes nothing is no input', () => {
    const player = new_player();
    player.go(0);
    player.move('ArrowUp', 0, 3);
    player.move('KeyX', 1, 4);
    player.frame(16);
    equal(inputs(player), []);
});

// ---- the run and its tape

check('what was seen is what the tape gives', () => {
    const player = played();
    equal(inputs(player).length, 24, 'inputs');
    equal(seen_log(player), whole_log(player));
});
check('all that ran is heard, once', () => {
    const player = played();
    const all = Gravitar.joined(player.heard.filter(it => it.records).map(it => it.records));
    equal(Gravitar.lines_of(all), seen_log(player));
    equal(player.heard.at(-1).clock, player.session.clock);
});
check('a pause lets keys go on', () => {
    const player = new_player();
    player.go(0);
    player.frame(16);
    player.move('ArrowUp', 1, 17);
    player.pause();
    equal(inputs(player), []);
    player.move('ArrowLeft', 1, 20);
    player.go(1000);
    player.frame(1016);
    equal(inputs(player), ['24192 IN3 FA']);
    equal(seen_log(player), whole_log(player));
});
check('a way back forgets, and takes the keys as they are', () => {
    const player = played(), clock = player.session.clock;
    player.move('ArrowLeft', 1, 1920);
    player.frame(1936);
    player.back(2000);
    for (let now = 2016; now <= 2160; now += 16) player.frame(now);
    equal(player.session.clock, clock + 24192 - 2 * 160 * 1512, 'the clock it came to');
    equal(player.session.inputs.every(it => it.clock < player.session.clock), true,
        'later inputs are forgotten');
    const many = inputs(player).length;
    player.go(2200);
    equal(inputs(player).slice(many), [`${player.session.clock} IN3 ${Gravitar.hex(0xFE, 2)}`]);
    player.frame(2216);
    equal(seen_log(player), whole_log(player));
});
check('a look changes nothing', () => {
    const player = played(), tape = tape_of(player), end = player.session.clock;
    player.look(1000000.7);
    equal([player.state, player.at, Gravitar.clock_of(player.shown_board())],
        ['looking', 1000000, 1000000]);
    equal(player.strokes.every(it => it.clock < 1000000) && player.strokes.length > 16, true,
        'its strokes');
    equal([tape_of(player), player.session.clock], [tape, end]);
    player.look(Infinity);
    equal([player.state, player.at], ['paused', end]);
});
check('to play on from a look forgets what came after', () => {
    const player = played();
    player.look(1000000);
    player.go(5000);
    player.frame(5016);
    equal(player.session.clock, 1024192);
    equal(seen_log(player), whole_log(player));
});
check('a frame at a time', () => {
    const player = new_player();
    player.step();
    player.step();
    equal([player.state, player.session.clock], ['paused', 2 * Gravitar.FRAME]);
});
check('a tape is played to its end, and no further', () => {
    const tape = Gravitar.text('5000 IN3 FB\n100000 IN3 FF\n100001 END\n'),
        player = new_player({tape});
    player.move('ArrowLeft', 1, 0);
    player.go(0);
    for (let now = 16; now < 200; now += 16) player.frame(now);
    equal([player.state, player.session.clock, player.take_end(), player.take_end()],
        ['paused', 100001, 'tape', null]);
    equal(inputs(player), ['5000 IN3 FB', '100000 IN3 FF']);
    equal(seen_log(player), whole_log(player));
});
check('a key takes over from a tape', () => {
    const tape = Gravitar.text('5000 IN3 7B\n100000 IN3 FF\n900000 END\n'),
        player = new_player({tape});
    player.go(0);
    player.frame(16);
    player.move('ArrowLeft', 1, 24);
    player.frame(32);
    equal(inputs(player), ['5000 IN3 7B', '36288 IN3 7E']);
    equal(player.is_watching(), false);
});
check('a press takes over where the tape has the button down', () => {
    const tape = Gravitar.text('5000 IN3 FB\n9000 IN4 DF\n100000 IN3 FF\n900000 END\n');
    const player = new_player({tape});
    player.controls = [...LAYOUTS.ship.controls, control('start', 'Digit1', 'IN4.5')];
    player.go(0);
    player.frame(16);
    player.move('ArrowUp', 1, 24);
    player.frame(32);
    equal(inputs(player), ['5000 IN3 FB', '9000 IN4 DF', '36288 IN4 FF']);
    const other = new_player({tape: Gravitar.text('5000 IN3 FB\n100000 IN3 FF\n900000 END\n')});
    other.go(0);
    other.frame(16);
    other.move('ArrowUp', 1, 24);
    other.frame(32);
    equal([other.is_watching(), inputs(other)], [false, ['5000 IN3 FB']]);
    equal([player.is_watching(), seen_log(player) === whole_log(player)], [false, true]);
});
check('only a press takes over from a tape', () => {
    const tape = Gravitar.text('5000 IN3 FB\n100000 P0 07\n900000 END\n');
    const player = new_player({tape});
    player.controls = [...LAYOUTS.ship.controls, control('pot', 'Mouse X', 'P0')];
    player.go(0);
    player.move('ArrowUp', 0, 2);
    player.move('Mouse X', 0.7, 4);
    player.frame(16);
    equal([player.is_watching(), inputs(player)], [true, ['5000 IN3 FB', '100000 P0 07']]);
});
check('a tape that is watched stays when it runs back', () => {
    const tape = Gravitar.text('5000 IN3 FB\n60000 IN3 FF\n900000 END\n'),
        player = new_player({tape});
    player.go(0);
    for (let now = 16; now <= 160; now += 16) player.frame(now);
    player.back(200);
    player.frame(260);
    player.go(300);
    player.frame(316);
    equal(inputs(player), ['5000 IN3 FB', '60000 IN3 FF']);
    equal(player.is_watching(), true);
});
check('a key that is released as another game begins is up', () => {
    const player = new_player();
    player.go(0);
    player.move('ArrowUp', 1, 2);
    player.frame(16);
    player.move('ArrowUp', 0, 18);
    player.begin(SHIP);
    player.go(20);
    player.frame(36);
    equal([inputs(player), player.values.get('ArrowUp')], [[], 0]);
});
check('switches are set at the first clock', () => {
    const player = new_player({ports: {P3: 255, Q1: 255, P4: 0}});
    equal(inputs(player), ['0 P3 FF', '0 Q1 FF']);
});
check('a page that loses its keys releases them', () => {
    const player = new_player();
    player.go(0);
    player.move('ArrowUp', 1, 4);
    player.frame(16);
    player.release_all(20);
    player.frame(32);
    equal(inputs(player), ['6048 IN3 FB', '30240 IN3 FF']);
});

// ---- controls

check('bits, switches and pots', () => {
    const down = new Map([['KeyA', 1]]), up = new Map();
    equal(byte_for('IN3', 0xFF, [control('', 'KeyA', 'IN3.4')], down), 0xEF);
    equal(byte_for('IN3', 0xEF, [control('', 'KeyA', 'IN3.4')], up), 0xFF);
    equal(byte_for('IN3', 0xFF, [control('', 'KeyA', 'IN3.4', {sets: 1})], up), 0xEF);
    equal(byte_for('IN0', 0xFF, [control('', 'KeyA', 'IN0.4')], down), 0x2F);
    const stays = [control('', 'KeyA', 'IN0.4', {stays: true})];
    equal(byte_for('IN0', 0x3F, stays, down, 'KeyA'), 0x2F);
    equal(byte_for('IN0', 0x2F, stays, down), 0x2F);
    equal(byte_for('IN0', 0x2F, stays, up, 'KeyA'), 0x3F);
    equal(byte_for('P0', 0, [control('', 'Mouse X', 'P0')], new Map([['Mouse X', 0.5]])), 114);
    equal(byte_for('P0', 7, [control('', 'Mouse X', 'P0')], up), 7);
    equal(byte_for('Q7', 0, [control('', 'KeyA', 'Q7')], down), 255);
    const two = [control('', 'KeyA', 'IN3.0'), control('', 'KeyB', 'IN3.0')];
    equal(byte_for('IN3', 0xFF, two, down), 0xFE, 'one of two keys');
});
check('the layouts have the bits of docs/ROMS.md', () => {
    const bits = name =>
        Object.fromEntries(LAYOUTS[name].controls.map(it => [it.name, `${it.port}.${it.bit}`]));
    const gravitar = bits('Gravitar'), widow = bits('Black Widow');
    equal([gravitar['button 3'], gravitar['button 1'], gravitar.right, gravitar.left,
        gravitar['button 2']],
        ['IN3.0', 'IN3.1', 'IN3.2', 'IN3.3', 'IN3.4']);
    for (const it of [gravitar, widow]) {
        equal([it['coin 2'], it['coin 1'], it['service mode'], it['diagnostic step'],
            it['one player'], it['two players']],
            ['IN0.0', 'IN0.1', 'IN0.4', 'IN0.5', 'IN4.5', 'IN4.6']);
    }
    equal(['right', 'left', 'down', 'up'].map(it => widow[`move ${it}`]),
        ['IN3.0', 'IN3.1', 'IN3.2', 'IN3.3']);
    equal(['right', 'left', 'down', 'up'].map(it => widow[`fire ${it}`]),
        ['IN4.0', 'IN4.1', 'IN4.2', 'IN4.3']);
});

// ---- pictures

const stroke = (clock, x0, y0, x1, y1, colour = 1,
    intensity = 5) => ({clock, x0, y0, x1, y1, colour, intensity});
check('strokes that differ are all seen, and the same one once', () => {
    const places = [0, 1 << 14, 1 << 21, 1 << 22, -(1 << 14), -(1 << 21), -(1 << 22)], list = [];
    const pairs = places.flatMap(x => places.map(y => [x, y]));
    for (const [a, b] of pairs) for (const [c, d] of pairs) {
        for (const [colour, intensity] of [[1, 5], [2, 5], [2, 6]]) list.push(stroke(9, a, b, c, d,
            colour, intensity));
    }
    equal(strokes_seen(list, 9).length, list.length);
    equal(strokes_seen([...list, ...list], 9).length, list.length);
});
check('strokes fade by their age', () => {
    const weights = [0, 24800, 24801,
        40000].map(age => strokes_seen([stroke(100, 0, 0, 5, 5)], 100 + age)[0].weight);
    equal(weights.map((it, i) => i < 2 ? it === 1 : it < weights[i - 1]), [true, true, true, true]);
    equal(strokes_seen([stroke(100, 0, 0, 5, 5)], 99).length, 0, 'not before it is drawn');
    equal(strokes_seen([stroke(100, 0, 0, 5, 5)], 90000).length, 0, 'nor long after');
});
check('a picture as SVG', () => {
    const text = svg_of([stroke(1, -100, 200, 300, -400, 6, 15)]);
    equal(text.includes('<path stroke="rgb(255,255,0)" d="M-100 -200L300 400"/>'), true, text);
    equal(text.includes(`viewBox="${PICTURE.x0} ${-PICTURE.y1} 19660800 14745600"`), true, text);
});
check('the stroke at a place', () => {
    const place = new Placement({x0: -100, y0: -100, x1: 100, y1: 100}, 400, 200);
    const list = [stroke(1, -50, 0, 50, 0), stroke(2, 0, 20, 0, 80)];
    equal(place.nearest(list, 200, 103, 5)?.clock, 1);
    equal(place.nearest(list, 203, 150, 5)?.clock, 2);
    equal(place.nearest(list, 20, 20, 5), null);
});

// ---- logs and files

check('a log is read as it was written', () => {
    const text = 'S 8036 -2097152 -2097152 2097152 -2097152 1 10\n' +
        'A 8100 10 0 0 0\nB 8100 0 15 0 1\n' +
        'L 8100 0F\nW 8200\nS 8300 5 6 7 8 7 15\nX 9000 90AB 02\nC 77\n';
    const log = read_log(Gravitar.text(text));
    equal(Array.from({length: log.count}, (_, i) => `${log.line_text(i)}\n`).join('') + 'C 77\n',
        text);
    equal([log.cost, log.levels(4), log.strokes(8036, 8299).length],
        [77, [[10, 0, 0, 0], [0, 15, 0, 1]], 1]);
    equal(Gravitar.lines_of(log.level_records(8099, 8100)), 'A 8100 10 0 0 0\nB 8100 0 15 0 1\n');
});
check('a log of the run', () => {
    const player = played(), text = whole_log(player), log = read_log(Gravitar.text(text));
    equal(Array.from({length: log.count}, (_, i) => `${log.line_text(i)}\n`).join(''), text);
    const whole = strokes_in(Gravitar.joined(player.seen)).length;
    equal(log.strokes(0, Infinity).length, whole);
});
check('levels of a long log', () => {
    const lines = ['A 1 1 2 3 4\n', 'B 2 5 6 7 8\n'];
    for (let i = 3; i < 20000; i++) lines.push(i === 9000 ? 'B 9000 9 9 9 9\n' : `L ${i} 00\n`);
    const log = read_log(Gravitar.text(lines.join('')));
    for (const [line, a, b] of [[0, 0, 0], [1, 1, 0], [2, 1, 5], [4096, 1, 5], [8999, 1, 5],
        [9000, 1, 9], [9001, 1, 9], [19999, 1, 9]]) {
        equal(log.levels(line).map(it => it[0]), [a, b], `before line ${line}`);
    }
});
check('what is no log says its line', () => {
    for (const [text, line] of [['Z 1\n', 1], ['E 5\nL 3 00\n', 2], ['S 1 2 3\n', 1], ['W  5\n', 1],
        ['E 1\n\nE 2\n', 2], ['L 5 GG\n', 1]]) {
        let said = 'nothing';
        try { read_log(Gravitar.text(text)); } catch (error) { said = error.message; }
        equal(said.startsWith(`line ${line}:`), true, `${JSON.stringify(text)} says ${said}`);
    }
});
check('where two logs differ', () => {
    const log = text => read_log(Gravitar.text(text)), one = log('W 1\nL 5 00\nE 9\n');
    equal([one.difference(log('W 1\nL 5 00\nE 9\n')), one.difference(log('W 1\nL 5 01\nE 9\n')),
           one.difference(log('W 1\n')), log('W 1\n').difference(one)], [null, 1, 1, 1]);
});
check('what a file is', () => {
    const kind = (name, bytes) => files.kind_of_file(name, typeof bytes === 'string'
        ? Gravitar.text(bytes) : new Uint8Array(bytes));
    equal([kind('a', 43008), kind('a', 4356), kind('a', 64), kind('a.s', 'x'), kind('a.v', ''),
        kind('a', '5 IN3 FF\n9 END\n'),
           kind('a.tape', 64), kind('a', 'S 5 1 2 3 4 5 6\n'), kind('a', 63), kind('a', '9 END')],
        ['image', 'board', 'cells', 'processor', 'generator', 'tape', 'tape', 'log', null, 'tape']);
    equal(files.unknown_file('a.bin', new Uint8Array(1234)).includes('1,234 bytes'), true);
});
check('which files are opened together', () => {
    const names = (...list) => {
        const {logs, unknown, left, ...game} = files.sort_files(list.map(name => ({name,
            bytes: Gravitar.text(name.endsWith('.log') ? 'E 5\n' : '9 END\n')})));
        return [logs, Object.values(game), left].map(all => all.map(it => it.name).join(' '));
    };
    equal(names('a.s', 'a.v', 'a.tape'), ['', 'a.s a.v a.tape', '']);
    equal(names('a.log', 'b.log', 'c.log'), ['a.log b.log', '', 'c.log']);
    equal(names('a.tape', 'a.log'), ['a.log', 'a.tape', 'a.tape']);
    equal(names('a.tape', 'b.tape'), ['', 'a.tape', 'b.tape']);
});
check('a refused tape shows its line', () => {
    const tape = {name: 'a.tape', bytes: Gravitar.text('5 IN9 00\n9 END\n')};
    equal(files.refusal_words({status: 4, place: 1, message: 'tape: line 1: port'}, {4: tape}),
        'a.tape: tape: line 1: port\n    1  5 IN9 00');
});

// ---- sound

check('a queue of samples loses none', () => {
    const queue = new SampleQueue(), block = new Float32Array(4), got = [];
    queue.put(Float32Array.from([1, 2, 3]));
    queue.put(Float32Array.from([]));
    queue.put(Float32Array.from([4, 5, 6]));
    for (let i = 0; i < 2; i++) { queue.take(block); got.push(...block); }
    equal(got.slice(0, 6), [1, 2, 3, 4, 5, 6]);
    equal([got[6] < 6, queue.counts()], [true, [0, 2, 6]]);
});
check('a device that sleeps gets nothing', () => {
    const speaker = new Speaker(), sent = [];
    Object.assign(speaker, {context: {state: 'suspended', sampleRate: 48000}, stale: true,
        waiting: 0, sent: 0, peak: 0,
        missing_before: 0, mixer: new Gravitar.Mixer(48000),
            line: {put: it => sent.push(it.length), clear() {}}});
    speaker.count([0, 5, 0]);
    const levels = [[0, 0, 0, 0], [0, 0, 0, 0]], none = new Uint8Array(0);
    speaker.hear(none, 25200, levels);
    equal(sent, []);
    speaker.context.state = 'running';
    speaker.hear(none, 50400, levels);
    equal(sent, [2400], 'what leads');
    for (let i = 3; i < 9; i++) { speaker.waiting = 2400; speaker.hear(none, 25200 * i, levels); }
    equal(sent.slice(1), [800, 800, 800, 800, 800, 800], 'a frame has its samples');
    speaker.waiting = 0;
    speaker.mean = 0;
    for (let i = 9; i < 12; i++) { speaker.waiting = 0; speaker.hear(none, 25200 * i, levels); }
    equal(sent.slice(7).reduce((a, b) => a + b) > 2408, true, 'half a percent more where few wait');
    speaker.count([100, 25, 0]);
    speaker.hear(none, 25200 * 12, levels);
    speaker.hear(none, 25200 * 13, levels);
    equal([sent.length, sent[10]], [13, 2300], 'one gap, and then what leads again');
});
check('a WAV has its header', () => {
    const bytes = wav_of([Float32Array.from([0, 1, -1]), Float32Array.from([2])], 48000),
        view = new DataView(bytes.buffer);
    equal([bytes.length, view.getUint32(4, true), view.getUint32(24, true),
        view.getUint32(40, true)], [52, 44, 48000, 8]);
    equal([0, 1, 2, 3].map(i => view.getInt16(44 + 2 * i, true)), [0, 32767, -32767, 32767]);
});

console.log(`${passed} passed, ${failed} failed`);
process.exit(failed || !passed ? 1 : 0);
