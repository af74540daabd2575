// What the workshop knows, without a browser: refused lines, names, steps and ways back, profiles,
// words of strokes, another image for the same play, projects and the shared file. Each is held
// against the program.
//     node web/test/workshop.mjs [--steps N] [--only WORDS] PROGRAM
// N is how many steps are made, 1,000 by default; WORDS choose the checks whose names have them.
// WEB names another folder of the page. The last line is `N passed, M failed, K skipped`.
import {execFileSync} from 'node:child_process';
import fs from 'node:fs';
import {createRequire} from 'node:module';
import path from 'node:path';
import {EXAMPLES, Program, Random, Checks, HERE, options} from './common.mjs';

const WEB = path.resolve(process.env.WEB ?? path.dirname(HERE));
const require = createRequire(import.meta.url), load = name => require(path.join(WEB, name));
const Gravitar = globalThis.Gravitar = load('core.js');
const SCRIPTS = ['picture', 'controls', 'names', 'build', 'highlight', 'refusals', 'writes',
    'debugger', 'profile', 'worker', 'profile_job', 'vector', 'replay', 'projects', 'share',
    'editor', 'player'];
for (const it of SCRIPTS) Object.assign(globalThis, load(`${it}.js`));
const module_text = fs.readFileSync(path.join(WEB, 'module.js'), 'utf8');
const MODULE = new Function(`${module_text}; return GRAVITAR_MODULE`)();
const library = await Gravitar.Library.load(MODULE);

const given = options({steps: true, only: true}), STEPS = Number(given.steps ?? 1000);
const program = new Program(given.program), checks = new Checks();
let skipped = 0;
const same = (what, got, want) => checks.same(what, String(got), String(want));
function test(what, doing) {
    if (what.includes(given.only ?? '')) checks.test(what, doing);
}
const text_of = (name, kind) =>
    fs.readFileSync(path.join(EXAMPLES, name, `${name}.${kind}`), 'utf8');
const sources_of = name => ({processor: text_of(name, 's'), generator: text_of(name, 'v')});
const printed = (...words) => program.run(...words).output.toString();

const SHIP = new Build(library, sources_of('ship')), TAPE = Gravitar.text(text_of('ship', 'tape'));
const LISTING = Gravitar.string_of(library.command(['asm', 's', 'v', 'o'],
    [{name: 's', bytes: Gravitar.text(SHIP.sources.processor)},
        {name: 'v', bytes: Gravitar.text(SHIP.sources.generator)}]).out);
program.put('ship.img', SHIP.image);
program.put('ship.tape', TAPE);
const session = new Gravitar.Session(library, SHIP.image, {tape: TAPE});
session.run(6000000);
const bugs = new Debugger(library, session);
const label = name => SHIP.names.values.get(name);
// What the program prints for a script over the tape, from power-on.
function script(...lines) {
    program.put('script', `${lines.join('\n')}\n`);
    return printed('debug', 'ship.img', 'ship.tape', 'script');
}

// ---- sources and their lines

test('names of the ship', what => {
    same(what, SHIP.names.name(label('thrust')), 'thrust');
    same(what, SHIP.names.name(label('thrust') + 3), 'thrust+3');
    same(what, SHIP.names.name(0x10), 'left');
    same(what, SHIP.names.name(4), '');
    same(what, SHIP.names.name(0x21), 'place+1');
    same(what, SHIP.names.address('place+1'), 0x21);
    same(what, SHIP.names.address('905B'), 0x905B);
    same(what, SHIP.names.address('nobody'), 'undefined');
});
test('each address leads to its line, and back', what => {
    program.put('ship.s', SHIP.sources.processor);
    program.put('ship.v', SHIP.sources.generator);
    const lines = printed('asm', 'ship.s', 'ship.v', 'made.img').trim().split('\n');
    same(what, LISTING.trim(), lines.join('\n'));
    checks.same(`${what}: the image`, SHIP.image, program.get('made.img'));
    for (const it of lines) {
        const [address, line] = [parseInt(it, 16), parseInt(it.slice(5))];
        const found = SHIP.listing.at(address), bytes = it.split(': ')[1].split(' ').length;
        same(what, [found.line, found.length, SHIP.listing.at(address + bytes - 1).line],
            [line, bytes, line]);
        same(what, SHIP.listing.on_line(found.part, line).address, address);
    }
});
test('labels behind .org and of lines without bytes', what => {
    const build = new Build(library, {generator: '', processor: 'size = 3\nlate = $9100+size\n' +
        '        .org $9000\none:\ntwo:    nop\nthree:\nfour:   .org late\nfive:   nop\nend:\n'});
    same(what, [...'one two three four five end'.split(' ')].map(it => build.names.values.get(it)),
        [0x9000, 0x9000, 0x9001, 0x9001, 0x9103, 0x9104]);
});
test('names are those of the recipe', what => {
    program.put('listing', LISTING);
    program.put('profile', printed('profile', 'ship.img', 'ship.tape'));
    const recipe = path.join(EXAMPLES, 'recipes', 'names.awk');
    const lines = program.shell(`awk -f '${recipe}' ship.s listing profile`).toString().trim();
    for (const it of lines.split('\n')) {
        const [kind, address, , , , name] = it.split(' ');
        if (kind !== 'R' || !name) continue;
        same(what, SHIP.names.name(parseInt(address, 16)), name.split(',')[0]);
    }
});
test('colours', what => {
    for (const name of ['ship', 'square', 'tune', 'score', 'latch']) {
        const sources = sources_of(name);
        for (const part of PARTS) {
            for (const line of sources[part].split('\n')) {
                const pieces = pieces_of(line, part);
                same(what, pieces.map(it => it.text).join(''), line);
                checks.holds(`${what}: ${line}`, !pieces.some(it => it.kind === 'bad'));
            }
        }
    }
    const kinds = (line, part) =>
        pieces_of(line, part).map(it => it.kind).filter(Boolean).join(' ');
    same(what, kinds('l: lda #$5,x ; c', 'processor'),
        'label mark word mark number mark register comment');
    same(what, kinds('vctr 1, 2, n', 'generator'), 'word number mark number mark name');
    same(what, kinds('lda "A"', 'processor').split(' ').includes('bad'), true);
});

// ---- what is refused

// The rows of REFUSALS' tables of sources, without their backticks.
function rows_of_page() {
    const page = fs.readFileSync(path.join(HERE, '../../docs/REFUSALS.md'), 'utf8');
    const part = page.split('## A source of either assembler')[1].split('\n## ')[0];
    const rows = [];
    let cause = '';
    for (const line of part.split('\n').filter(it => it.startsWith('| '))) {
        const cells = line.split(/(?<!\\)\|/).slice(1, -1).map(it => it.trim().replace(/`/g, ''));
        if (cells[0] === 'cause') continue;
        cause = cells[0] || cause;
        rows.push([cause, cells[1], cells[2]].join(' | '));
    }
    return rows;
}
test('the table is that of REFUSALS', what => {
    const mine = new Set(REFUSALS.map(it => it.slice(1, 4).join(' | ')));
    for (const it of rows_of_page()) {
        const is_long = it.startsWith('too long');
        checks.holds(`${what}: ${it}`, is_long || mine.has(it));
    }
});
// [part, line, cause, what REFUSALS calls it]
const MISTAKES = [
    ['processor', 'start lda #5', 'no such form', 'start lda #5'],
    ['processor', '        lsr', 'no such form', 'lsr, asl'],
    ['processor', '        sta #5', 'no such form', 'bit #5'],
    ['processor', '        jmp (5,x)', 'no such form', 'bit #5'],
    ['processor', '        stz 5', 'no such form', 'stz 5'],
    ['processor', '        inc a', 'no such form', 'stz 5'],
    ['processor', '        foo', 'no such form', 'stz 5'],
    ['processor', '        .res 3', 'no such form', '.res 3'],
    ['processor', '        db 5', 'no such form', '.addr l'],
    ['processor', '        .byte 1,', 'no such form', '.byte 1,'],
    ['processor', 'a: nop', 'no such form', 'a: nop'],
    ['processor', 'x = 5', 'no such form', 'a: nop'],
    ['processor', '        lda #(2+3)', 'no such form', 'lda #(2+3)'],
    ['processor', '        lda a:5', 'no such form', 'lda #(2+3)'],
    ['processor', '        .byte "AB"', 'bad token', '.byte "AB"'],
    ['processor', '        lda #2*3', 'bad token', 'lda #2*3'],
    ['processor', '        lda @l', 'bad token', 'lda @l'],
    ['processor', '        lda #5 // five', 'bad token', 'lda #5 //'],
    ['processor', '        lda #0x10', 'bad number', 'lda #0x10'],
    ['processor', '        lda #$', 'bad number', 'lda #$'],
    ['processor', '        lda #65536', 'bad number', 'lda #65536'],
    ['processor', 'ok: nop', 'twice named', 'l: nop'],
    ['processor', '        jmp nowhere', 'unknown name', 'jmp nowhere'],
    ['processor', 'n = m', 'unknown name', 'n = m'],
    ['processor', '        lda #256', 'out of range', 'lda #256'],
    ['processor', '        bne ok+300', 'out of range', 'bne far'],
    ['processor', '        stx $1234,y', 'out of range', 'stx $1234'],
    ['generator', '        vctr 5, 5', 'no such form', 'vctr 5, 5'],
    ['generator', '        .byte 5', 'no such form', '.byte 5'],
    ['generator', '        rts', 'no such form', 'jsr l'],
    ['generator', '        vctr 5000, 0, 1', 'out of range', 'vctr 5000'],
    ['generator', '        svec 3, 0, 1', 'out of range', 'svec 3'],
    ['generator', '        stat 1, 16', 'out of range', 'vctr 0, 0, 8'],
    ['generator', '        jmpl $1000', 'out of range', 'jmpl 2800'],
];
const HEADS = {processor: ['        .org $9000', 'ok:     nop'],
    generator: ['        .org $2800', 'ok:     cntr']};
// The line and the cause that the program names for a source.
function refusal_of(part, text) {
    const other = part === 'processor' ? 'generator' : 'processor';
    program.put(`${part}.src`, text);
    program.put(`${other}.src`, '');
    const {note} = program.run('asm', 'processor.src', 'generator.src', 'no.img');
    const [, line, cause] = /line (\d+): (.*)/.exec(note) ?? [];
    return {line: Number(line), cause};
}
test('each mistake alone', what => {
    for (const [part, line, cause, written] of MISTAKES) {
        const text = [...HEADS[part], line, ''].join('\n');
        const found = [...problems_of(library, part, text)];
        const want = refusal_of(part, text);
        same(`${what}: ${line}`, JSON.stringify(found.map(it => [it.line, it.cause])),
            JSON.stringify([[want.line, want.cause]]));
        same(`${what}: ${line}`, found[0]?.cause, cause);
        const cure = cure_of(part, cause, line);
        checks.holds(`${what}: ${line}: ${cure?.written}`, cure?.written.startsWith(written));
    }
});
test('all mistakes together, each line marked', what => {
    for (const part of PARTS) {
        const mine = MISTAKES.filter(it => it[0] === part), lines = [...HEADS[part]];
        const good = part === 'processor' ? '        nop' : '        cntr';
        for (const it of mine) lines.push(it[1], good);
        const found = [...problems_of(library, part, lines.join('\n'))];
        const want = mine.map((it, i) => `${2 * i + 3} ${it[2]}`).sort();
        same(`${what}: ${part}`, found.map(it => `${it.line} ${it.cause}`).sort().join('\n'),
            want.join('\n'));
        const first = refusal_of(part, lines.join('\n'));
        same(`${what}: the first`, `${found[0].line} ${found[0].cause}`,
            `${first.line} ${first.cause}`);
    }
});
test('a refused line keeps what it names', what => {
    const text = ['        .org $9000', 'lab:    lda #256', 'n = 70000', '        jmp lab',
        '        lda n', ''].join('\n');
    same(what, [...problems_of(library, 'processor', text)].map(it => it.line).join(' '), '2 3');
});
test('both sources refused', what => {
    const build = new Build(library, {processor: ' foo\n', generator: ' bar\n'});
    same(what, JSON.stringify(build.problem),
        '{"part":"processor","line":1,"cause":"no such form"}');
    same(what, JSON.stringify(new Build(library, {processor: '', generator: '\n bar\n'}).problem),
        '{"part":"generator","line":2,"cause":"no such form"}');
});
test('lines of breaks follow an edit', what => {
    const random = new Random(7);
    for (let i = 0; i < 400; i++) {
        const before = Array.from({length: 30}, (_, k) => `line ${k}`), after = [...before];
        const at = random.below(28), many = random.below(4);
        const cut = random.below(2) ? many : 0, put = cut ? [] : Array(many).fill('new');
        after.splice(at, Math.min(cut, 30 - at), ...put);
        const want = before.map((it, k) => [k + 1, after.indexOf(it) + 1]).filter(it => it[1]);
        const moved = moved_lines(want.map(it => it[0]), edit_of(before, after));
        same(what, moved.join(' '), want.map(it => it[1]).join(' '));
        const gone = before.map((it, k) => k + 1).filter(it => !after.includes(`line ${it - 1}`));
        same(what, moved_lines(gone, edit_of(before, after)).join(' '), '');
    }
});

test('marks of refused lines follow an edit', what => {
    const random = new Random(9);
    for (let i = 0; i < 300; i++) {
        const before = Array.from({length: 20}, (_, k) => `line ${k}`), after = [...before];
        const at = random.below(18), cut = random.below(3), put = random.below(3);
        after.splice(at, cut, ...Array.from({length: put}, (_, k) => `new ${k}`));
        const marks = new Map(before.map((it, k) => [k + 1, it]));
        const want = [...marks].filter(it => after.includes(it[1]))
            .map(it => `${after.indexOf(it[1]) + 1} ${it[1]}`).join('\n');
        same(what, [...moved_marks(marks, before, after)].map(it => it.join(' ')).join('\n'), want);
    }
});
// The page's list of keys has each key of main.js that is for a game, and those are in PLAY.
test('the list of keys', what => {
    const main = fs.readFileSync(path.join(WEB, 'main.js'), 'utf8');
    const part = main.slice(main.indexOf('this.commands = {'), main.indexOf('this.fill();'));
    const codes = [...part.matchAll(/\b(Key[A-Z]|[A-Z]\w+): \(\)/g)].map(it => it[1]);
    const {source_words} = load('controls.js'), html = fs.readFileSync(
        path.join(WEB, 'index.html'), 'utf8');
    const list = /<kbd>Backspace<\/kbd>[^]*?<\/p>/.exec(html)[0];
    const page = fs.readFileSync(path.join(HERE, '../../docs/PLAY.md'), 'utf8');
    checks.holds(`${what}: ${codes}`, codes.length > 10);
    for (const code of codes) {
        const word = code === 'Equal' ? '=' : code === 'BracketRight' ? ']' : source_words(code);
        const is_elsewhere = code === 'Escape' || code === 'Comma';
        checks.holds(`${what}: ${word} on the page`,
            is_elsewhere || list.includes(`<kbd>${word}</kbd>`));
        checks.holds(`${what}: ${word} in PLAY`, new RegExp(`^\\|.*(^|[ |])${
            word.replace(/[[\].]/g, '\\$&')}([ ,|]).*\\|`, 'm').test(page));
    }
});
// Classes and functions of the page are short, but for what goes to a worker as one text.
test('functions are below 40 lines', what => {
    const made = ['core.js', 'module.js', 'single.js', 'examples.js'];
    for (const name of fs.readdirSync(WEB).filter(it => it.endsWith('.js'))) {
        if (made.includes(name)) continue;
        const lines = fs.readFileSync(path.join(WEB, name), 'utf8').split('\n');
        checks.holds(`${what}: ${name} has ${lines.length} lines`, lines.length < 420);
        lines.forEach((line, i) => {
            const head = /^( {4}|)(?!class |const |for |if |while )\S.*\) \{$/;
            const [, blanks] = head.exec(line) ?? [];
            if (blanks === undefined) return;
            const end = lines.findIndex((it, k) => k > i && it.startsWith(`${blanks}}`));
            checks.holds(`${what}: ${name}:${i + 1}`, end < 0 || end - i < 40);
        });
    }
});

// ---- the debugger

// What a generator returns, or null where it has come to before a clock.
function ended(going, oldest = -1) {
    for (;;) {
        const it = going.next();
        if (it.done) return it.value;
        if (it.value < oldest) return null;
    }
}

test(`${STEPS} steps`, what => {
    const begin = 1209000, pair = ['step 1', 'regs'];
    const steps = Array.from({length: 2 * STEPS}, (_, i) => pair[i & 1]);
    const want = script(`until ${begin}`, ...steps);
    const regs = want.match(/clock .*\ncpu .*/g);
    let clock = bugs.until(0, begin).clock;
    const clocks = [clock];
    for (let i = 0; i < STEPS; i++) {
        clock = bugs.step(clock).clock;
        clocks.push(clock);
        const got = bugs.shows(clock, 'regs').trim();
        if (got !== regs[i]) { same(`${what}: step ${i + 1}`, got, regs[i]); return; }
    }
    same(what, regs.length, STEPS);
    for (let i = STEPS; i > 0; i--) {
        clock = bugs.back_step(clock);
        if (clock !== clocks[i - 1]) { same(`back: step ${i}`, clock, clocks[i - 1]); return; }
    }
    same('back a step, as often', clock, clocks[0]);
});
test('back a step at the start', what => {
    same(what, bugs.back_step(7), '0');
    same(what, bugs.back_step(0), 'null');
    const inside = bugs.step(1209600).clock - 1;
    same(what, bugs.step(bugs.back_step(inside)).clock, inside + 1);
});
test('a break by line', what => {
    const line = SHIP.sources.processor.split('\n').findIndex(it => it.startsWith('thrust:')) + 1;
    const address = SHIP.listing.from_line('processor', line).address;
    same(what, address, label('thrust'));
    const many = 200;
    const want = script(`break ${address_words(address)}`, ...Array(many).fill('go'));
    let clock = 0;
    const got = [];
    for (let i = 0; i < many; i++) {
        const stop = bugs.run(clock, {breaks: [address], to: 6000000});
        got.push(`stop ${stop.why} at ${stop.clock}`);
        clock = stop.clock;
    }
    same(what, got.join('\n'), want.trim());
});
// A watch that never stops makes the pieces small; they end just before, at and behind the break.
test('a break where a piece ends', what => {
    const address = label('push'), words = [`break ${address_words(address)}`, 'go'];
    const {clock} = stops_of(script('until 1700000', ...words)).at(-1);
    for (let by = -9; by < 10; by++) {
        const from = clock - Gravitar.HZ / 4 + by;
        same(`${what}: ${by}`, bugs.run(from, {breaks: [address], watches: [0x0700], to: 2500000})
            .clock, clock);
    }
});
test('over a subroutine, and out of it', what => {
    const lines = SHIP.sources.processor.split('\n');
    const line = lines.findIndex(it => it.includes('jsr write')) + 1;
    const jsr = SHIP.listing.on_line('processor', line);
    const [at, next] = [jsr.address, jsr.address + 3].map(address_words);
    const [here, after] = stops_of(script(`break ${at}`, 'go', 'clear', `break ${next}`, 'go'));
    same(what, bugs.over(here.clock, 6000000).clock, after.clock);
    const within = bugs.step(here.clock).clock;
    same(what, bugs.place(within).pc, label('write'));
    same(`${what}: out`, bugs.out(within, 6000000).clock, after.clock);
    const deep = bugs.run(within, {breaks: [label('cosine')], to: 6000000}).clock;
    const caller = bugs.out(deep, 6000000).clock;
    same(what, SHIP.listing.at(bugs.place(caller).pc - 1).bytes.slice(0, 2), '20');
    same(`${what}: a plain instruction`, bugs.over(9, 100).clock, bugs.step(9).clock);
});
test('over a routine that calls itself', what => {
    const build = new Build(library, {generator: '', processor: '        .org $9000\n' +
        'start:  ldx #$FF\n        txs\n        lda #3\n        jsr down\nhere:   jmp here\n' +
        'down:   sec\n        sbc #1\n        beq done\n        jsr down\nback:   nop\n' +
        'done:   rts\n        .org $FFFC\n        .word start\n'});
    const run = new Gravitar.Session(library, build.image);
    run.run(3000);
    const it = new Debugger(library, run), address = name => build.names.values.get(name);
    const first = it.run(0, {breaks: [address('down')], to: 3000}).clock;
    const inner = it.run(first, {breaks: [address('back') - 3], to: 3000}).clock;
    const {s} = it.place(inner), stop = it.over(inner, 3000);
    same(what, [it.place(stop.clock).pc, it.place(stop.clock).s], [address('back'), s]);
});
test('pictures, forward and back', what => {
    const all = stops_of(script('stopvg', ...Array(220).fill('go'))).map(it => it.clock);
    for (let i = 5; i < 40; i++) {
        same(what, bugs.run(all[i], {halts: true, to: 6000000}).clock, all[i + 1]);
        same(`${what}: back`, bugs.back_picture(all[i]), all[i - 1]);
        same(`${what}: back`, bugs.back_picture(all[i] + 1000), all[i]);
    }
});
test('who wrote this', what => {
    for (const [name, clock] of [['heading', 1500000], ['nose', 1799999], ['flame', 5000000],
        ['place+1', 4000000], ['left', 2000001]]) {
        const address = SHIP.names.address(name);
        const all = stops_of(script(`watch ${address_words(address)}`, ...Array(1500).fill('go')));
        const want = all.filter(it => it.clock <= clock && it.why.startsWith('watch')).at(-1);
        const search = bugs.last_change(clock, address);
        const it = ended(search);
        same(`${what}: ${name}`, it.clock, want.clock);
        const text = SHIP.sources.processor.split('\n')[SHIP.listing.at(it.pc).line - 1];
        checks.holds(`${what}: ${name}: ${text}`, /\b(sta|inc|dec)\b/.test(text));
        same(what, bugs.step(it.begin).clock, want.clock);
    }
});
/* Another way to see a write, of the same byte too: a turn is made twice, the second time with
 * another byte there. Where that is another one afterwards, in either, it was written. The last
 * such turn that ends at a clock or before, or null. */
function last_written(run, turns, address, to) {
    const at = address < 0x800 ? 260 + address : 2308 + address - 0x2000;
    return turns.findLast(({board, clock}) => clock <= to && [0, 0xFF].some(flip => {
        const other = board.slice();
        other[at] ^= flip;
        return run.step(other, clock).board[at] !== other[at];
    })) ?? null;
}
// The turns of a stretch, each with the board in front of it.
function turns_between(run, from, to) {
    const lines = Array(2000).fill('step 1'), turns = [];
    let {board} = run.look(from), begin = from;
    for (const {clock} of stops_of(new Debugger(library, run).script(from, lines, to))) {
        turns.push({begin, clock, board});
        board = run.step(board, clock).board;
        begin = clock;
    }
    return turns;
}
test('who wrote the same byte', what => {
    const random = new Random(5);
    let handler = stops_of(script('until 4990000', 'break 9027', 'go')).at(-1).clock;
    for (let i = 0; i < 9; i++) handler = bugs.back_step(handler);      // before the interrupt
    const areas = [[0x10, 24], [0x1F0, 16], [0x2000, 48]];
    const turns = turns_between(session, handler, handler + 1600);
    for (let i = 0; i < 90; i++) {
        const [first, many] = areas[i % 3], address = first + random.below(many);
        const clock = handler + 20 + random.below(1500);
        const want = last_written(session, turns, address, clock);
        const it = ended(bugs.last_write(clock, address), handler - 1e5);
        const words = address_words(address);
        if (want) same(`${what}: ${words} at ${clock}`, [it.begin, it.clock],
            [want.begin, want.clock]);
        else checks.holds(`${what}: ${words}`, !it || it.begin <= handler + 8);
    }
    const clock = 4999000, it = ended(bugs.last_write(clock, label('flame')));
    same(`${what}: its own clock`, SHIP.listing.at(it.pc).line, SHIP.sources.processor.split('\n')
        .findIndex(line => line.includes('sta flame')) + 1);
    same(`${what}: its own clock`, bugs.place(it.begin).pc, it.pc);
    checks.holds(what, ended(bugs.last_change(clock, label('flame'))).clock < it.clock - 100000);
});
// Each kind of an instruction that writes, with a byte that is there already, and an interrupt.
test('who wrote, by each kind of instruction', what => {
    const lines = ['ldx #2', 'ldy #3', 'sta $10', 'sta $0E,x', 'stx $0D,y', 'sta $0010',
        'sta $000E,x', 'sta $000D,y', 'sta ($20,x)', 'sta ($22),y', 'stx $10', 'sty $10',
        'asl $11', 'lsr $11', 'rol $0F,x', 'ror $0011', 'inc $12', 'dec $10,x', 'pha', 'php',
        'jsr sub', 'brk', 'nop', 'sta $2010', 'sta ($24),y'];
    const build = new Build(library, {generator: '', processor: '        .org $9000\n' +
        'start:  ldx #$FF\n        txs\n        lda #$0D\n        sta $26\n        lda #$10\n' +
        '        sta $22\n        sta $24\n        lda #$20\n        sta $25\n        lda #$0D\n' +
        `        sta $22\n        lda #$10\n        sta $22\n${
            lines.map(it => `        ${it}\n`).join('')}` +
        'here:   brk\n        nop\n        jmp here\nsub:    rts\nback:   rti\n' +
        '        .org $FFFC\n        .word start, back\n'});
    const run = new Gravitar.Session(library, build.image);
    run.run(600);
    const it = new Debugger(library, run), turns = turns_between(run, 0, 400);
    for (const address of [0x10, 0x11, 0x13, 0x22, 0x1FF, 0x1FE, 0x1FD, 0x1FC, 0x1FB, 0x2010]) {
        for (const clock of turns.slice(6, 60).flatMap(it => [it.clock - 1, it.clock])) {
            const want = last_written(run, turns, address, clock);
            const got = ended(it.last_write(clock, address));
            same(`${what}: ${address_words(address)} at ${clock}`,
                `${got?.begin} ${got?.clock}`, `${want?.begin} ${want?.clock}`);
        }
    }
});
test('a player stops at a break', what => {
    const player = new Player(library, {hears() {}, breaks() {}});
    player.begin(SHIP.image, {tape: TAPE});
    const stops = [], breaks = [label('thrust')];
    player.stops = (from, to) =>
        new Debugger(library, player.session).stop_before(from, to, {breaks});
    player.stopped = () => stops.push(player.session.clock);
    // A picture has 24,576 clocks, and the frames about as many.
    for (let now = 0, i = 0, wide; stops.length < 60 && i < 500; now += wide, i++) {
        wide = (24576.5 + i % 5 - 2) / 1512;
        if (player.state === 'paused') player.go(now);
        player.frame(now + wide);
    }
    const want = stops_of(script('break 905B', ...Array(60).fill('go'))).map(it => it.clock);
    same(what, stops.join(' '), want.join(' '));
});

// ---- profile and pictures

test('the profile is that of the program', what => {
    const [from, to] = [3000001, 3000001 + Gravitar.HZ];
    program.put('from.board', session.look(from).board);
    program.put('from.tape', session.between(from, to));
    const words = ['ship.img', 'from.tape', '--state', 'from.board'];
    const profile = Profile.of(library, session, from, to);
    same(what, profile.text, printed('profile', ...words));
    const sum = profile.routines.reduce((sum, it) => sum + it.clocks, 0);
    same(`${what}: its sum`, sum, profile.clocks);
    same(`${what}: the dearest`, SHIP.names.name(profile.routines[0].address), 'wait');
    const pictures = Pictures.of(library, session, from, to);
    same(`${what}: frames`, pictures.text, printed('frames', ...words));
    checks.holds(what, Math.abs(pictures.rate() - 61.5) < 1);
    const halts = bugs.stops_between(from, to, ['stopvg']).map(it => it.clock);
    const share = drawing_share(pictures, halts);
    checks.holds(`${what}: ${share}`, share > 0.05 && share < 0.08);
    const outer = bugs.outermost(4000000, 4000000 + Gravitar.HZ);
    const {routines} = Profile.of(library, session, outer, 4000000 + Gravitar.HZ);
    same(`${what}: what waits`, SHIP.names.name(routines[0].address), 'wait');
    checks.holds(what, outer < 4000000 + 30000);
    same(`${what}: the whole`, Profile.of(library, session, 0, session.clock).text,
        printed('profile', 'ship.img', 'ship.tape', '--until', session.clock));
});

// A browser that makes no worker has the profile in slices, which together are the whole.
test('a profile in slices', what => {
    for (const name of ['ship', 'tune', 'score', 'square', 'latch', 'rubble']) {
        const {image} = new Build(library, sources_of(name));
        const run = new Gravitar.Session(library, image);
        run.run(4000000);
        const want = Profile.of(library, run, 0, run.clock), shares = [];
        const going = profile_in_slices(library, new Debugger(library, run), 0, run.clock, 700000);
        let step = going.next();
        for (; !step.done; step = going.next()) shares.push(step.value);
        same(`${what}: ${name}`, step.value.profile.text, want.text);
        same(`${what}: ${name}: pictures`, step.value.rate,
            Pictures.of(library, run, 0, run.clock).rate());
        same(`${what}: ${name}: the last share`, shares.at(-1), 1);
        checks.holds(`${what}: ${name}: slices`, run.clock < 1e6 || shares.length > 4);
    }
});
test('a worker has the text of its library', what => {
    const scope = {}, text = worker_text().replace(/\nworker_main\(self\);\n$/, '\n');
    new Function('self', 'module', text)(scope, undefined);
    same(what, Object.keys(scope.Gravitar).join(' '), Object.keys(Gravitar).join(' '));
});
await test_jobs();
// With a worker, or without; and one that is cancelled.
async function test_jobs() {
    if (!'a job'.includes(given.only ?? '')) return;
    const to = 6 * Gravitar.HZ, want = () => Profile.of(library, session, 0, session.clock).text;
    const worker = {ends: 0, end() { this.ends++; },
        printed: async ({words, files}) => Gravitar.string_of(library.command(words, files).out)};
    for (const it of [worker, null]) {
        const what = `a job, ${it ? 'with' : 'without'} a worker`, shares = [];
        const job = new ProfileJob(library, bugs, 0, Math.min(to, session.clock), async () => it);
        const found = await job.run(share => shares.push(share));
        same(what, found.profile.text, want());
        checks.holds(what, shares[0] === 0 && shares.every(share => share >= 0 && share <= 1));
        const other = new ProfileJob(library, bugs, 0, session.clock, async () => it);
        same(`${what}: cancelled`, await other.run(() => other.cancel()), null);
    }
    checks.holds('a job ends its worker', worker.ends >= 2);
}

// ---- strokes and their words

test('each stroke has its word', what => {
    const to = 5000000, {records} = session.look(to, to - 100000), strokes = strokes_in(records);
    const list = words_of_strokes(session, strokes);
    same(what, list.length, strokes.length);
    for (const {stroke, address, words} of list) {
        const board = session.look(stroke.clock).board;
        const text = bugs.shows(stroke.clock, `vdis ${address_words(address)} 1`).trim();
        const [, word, dx, dy] = /(vctr|svec) (-?\d+), (-?\d+)/.exec(text) ?? [];
        const [wide, high] = [stroke.x1 - stroke.x0, stroke.y1 - stroke.y0];
        same(`${what}: ${text}`, word, words === 1 ? 'svec' : 'vctr');
        same(`${what}: ${text}`, [dx, dy].map(Math.sign), [wide, high].map(Math.sign));
        same(what, JSON.stringify(word_of_stroke(board, SHIP.image, stroke)),
            JSON.stringify({address, words}));
    }
    const lines = list.filter(it => it.address >= 0x2800)
        .map(it => SHIP.listing.at(it.address).line).slice(0, 24);
    const once = [8, 9, 10, 11, 15, 16, 17, 18, 19, 20, 21, 22], at = once.indexOf(lines[0]);
    same(`${what}: lines`, lines.slice(12 - at).slice(0, 12).join(' '), once.join(' '));
});

// ---- another image for the same play

function log_of(run) { return [...run.log()].map(it => Gravitar.string_of(it)).join(''); }
test('a change is seen at the same clock of the same play', what => {
    const sources = sources_of('ship');
    sources.processor = sources.processor.replace('$60F6', '$60F5');
    const build = new Build(library, sources), it = new Replay(library, session, build.image);
    while (!it.run(5));
    same(what, it.session.clock, session.clock);
    program.put('other.img', build.image);
    program.put('play.tape', session.tape());
    same(`${what}: the tape`, Gravitar.string_of(it.session.tape()),
        Gravitar.string_of(session.tape()));
    same(what, log_of(it.session), printed('run', 'other.img', 'play.tape'));
    checks.holds(what, / 5 15$/m.test(log_of(it.session)) && !/ 6 15$/m.test(log_of(it.session)));
    same(`${what}: the rest of the tape`, it.session.tape_end, session.tape_end);
});
test('from a kept board', what => {
    const kept = session.look(2500001).board, sources = sources_of('ship');
    sources.generator = sources.generator.replace('stat 2, 12', 'stat 3, 12');
    const build = new Build(library, sources), it = new Replay(library, session, build.image, kept);
    while (!it.run(5));
    program.put('kept.board', kept);
    program.put('other.img', build.image);
    program.put('play.tape', it.session.tape());
    same(what, [it.session.start.length, it.session.clock], [4356, session.clock]);
    same(what, log_of(it.session),
        printed('run', 'other.img', 'play.tape', '--state', 'kept.board'));
});
test('an image that jams ends the play there', what => {
    const bad = new Build(library, {generator: '', processor: '        .org $9000\n' +
        'start:  nop\n        .byte 2\n        .org $FFFC\n        .word start\n'});
    const it = new Replay(library, session, bad.image);
    while (!it.run(5));
    same(what, it.session.jammed, true);
});

// ---- projects and the shared file

class Storage {
    constructor(most = Infinity) { this.map = new Map(); this.most = most; }
    get length() { return this.map.size; }
    key(i) { return [...this.map.keys()][i]; }
    getItem(key) { return this.map.get(key) ?? null; }
    setItem(key, text) {
        if (text.length > this.most) throw new Error('full');
        this.map.set(key, text);
    }
    removeItem(key) { this.map.delete(key); }
}
test('projects', what => {
    const storage = new Storage(), it = new Projects(storage), ship = sources_of('ship');
    same(what, it.put('my ship', ship), true);
    storage.setItem('gravitar layout 00', '{}');
    storage.setItem('gravitar project broken', '{"processor":1}');
    storage.setItem('gravitar project worse', '{');
    same(what, new Projects(storage).names(), 'my ship');
    same(what, JSON.stringify(new Projects(storage).get('my ship')), JSON.stringify(ship));
    same(what, it.free('my ship'), 'my ship 2');
    same(what, it.rename('my ship', 'other'), 'other');
    same(what, it.names(), 'other');
    it.remove('other');
    same(what, it.names().length, 0);
    const full = new Projects(new Storage(100));
    same(`${what}: full`, full.put('a', ship), false);
    same(`${what}: full`, full.get('a').processor, ship.processor);
    same(`${what}: none`, new Projects(null).put('a', ship), false);
});
test('a project has its name again', what => {
    const {generator, processor} = sources_of('square');
    const texts = [processor, `${processor}; no end`, '', '\n', 'x', 'x\n\n',
        '; gravitar project: a', '; gravitar project: a\n', 'x\r\n', 'x\r\n ; gravitar project'];
    const names = ['my ship', 'ship', 'Ö/ö', 'a: b; c', '; gravitar project: x', 'a.b', ' a '];
    for (const name of names) {
        for (const text of texts) {
            const files = saved_sources(name, {processor: text, generator});
            same(`${what}: files`, files.map(it => it.name).join(' '),
                `${plain_name(name)}.s ${plain_name(name)}.v`);
            if (plain_name(name) === name && /project/.test(text)) continue;
            const it = opened_sources(plain_name(name),
                {processor: files[0].text, generator: files[1].text});
            same(`${what}: ${name}`, it.name, name);
            same(`${what}: ${name}: source`, it.sources.processor, text);
            same(`${what}: ${name}: source`, it.sources.generator, generator);
        }
    }
    const files = saved_sources('my ship', sources_of('ship'));
    const build = new Build(library, {processor: files[0].text, generator: files[1].text});
    checks.same(`${what}: the same image`, build.image, SHIP.image);
    same(`${what}: the same lines`, JSON.stringify(build.listing.entries),
        JSON.stringify(SHIP.listing.entries));
    same(what, saved_sources('ship', sources_of('ship'))[0].text, SHIP.sources.processor);
});
test('the shared file is that of web.sh --single', what => {
    const single = load('single.js'), page = whole_page(single, MODULE);
    const game = {name: 'ship', image: SHIP.image, tape: TAPE}, text = with_game(page, game);
    const out = path.join(program.folder, 'single.html'), tool = path.join(WEB, '../tools/web.sh');
    if (process.env.WEB) { skipped++; return; }
    try { execFileSync('python3', ['--version'], {stdio: 'ignore'}); } catch { skipped++; return; }
    execFileSync('sh', [tool, '--single', out, path.join(program.folder, 'ship.img'),
        path.join(program.folder, 'ship.tape')], {stdio: 'ignore'});
    same(what, text, fs.readFileSync(out, 'utf8'));
});
test('a shared file can be shared again', what => {
    const page = '<!doctype html>\n<body>\n<script>\nlet a;\n</script>\n</body>\n';
    const {LAYOUTS} = load('controls.js'), layout = {...LAYOUTS['all of IN3 and IN4'], on: ['in0']};
    const game = {name: 'a</script><!--', image: SHIP.image, ...sources_of('ship'), layout};
    const once = with_game(page, game);
    same(what, with_game(once, game), once);
    same(what, once.match(/<\/script>/g).length, 2);
    const line = /<script>\n(var GRAVITAR_GAME[^]*?)<\/script>/.exec(once)[1];
    const read = new Function(`${line}; return GRAVITAR_GAME`)();
    same(what, read.processor, game.processor);
    same(what, read.name, game.name);
    same(what, JSON.stringify(read.layout), JSON.stringify(layout));
    checks.same(what, Gravitar.bytes_of_base64(read.image), game.image);
});

console.log(`${checks.passed} passed, ${checks.failed} failed, ${skipped} skipped`);
process.exitCode = checks.failed ? 1 : checks.passed ? 0 : 2;
