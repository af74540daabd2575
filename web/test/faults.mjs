// Plants faults into copies of core.js: session.mjs has to refuse each, and pass an unchanged copy.
//     node faults.mjs PROGRAM [--only WORDS]
// The last line is `N passed, M failed`: a fault that is refused has passed.
import {spawnSync} from 'node:child_process';
import fs from 'node:fs';
import path from 'node:path';
import {Checks, HERE, Program, WEB, options} from './common.mjs';

// What is wrong, a text that core.js has once, and what stands in its place.
const FAULTS = [
    ['a key a clock late', 'push({clock, port', 'push({clock: clock + 1, port'],
    ['a key at the start of its slice', 'Math.max(Math.floor(clock), this.clock);', 'this.clock;'],
    ['a key drops no later input', 'this.drop(clock + 1);', ''],
    ['a key drops those of its own clock', 'this.drop(clock + 1);', 'this.drop(clock);'],
    ['a port forgets what is to come', 'return this.inputs[i].value & mask;', 'continue;'],
    ['IN0 has eight bits', "name === 'IN0' ? 63 : 255", '255'],
    ['a rewind keeps later inputs', 'this.drop(this.clock);', ''],
    ['a rewind drops an input too many', 'this.drop(this.clock);', 'this.drop(this.clock - 1);'],
    ['a way back keeps later boards', 'this.kept.length = Math.max(1,', '(1,'],
    ['a way back ends a clock early', 'const to = this.within(clock);',
     'const to = this.within(clock - 1);'],
    ['a slice ends a clock short', 'const to = Math.floor(clock), parts',
     'const to = Math.floor(clock) - 1, parts'],
    ['a slice ends at a boundary', 'Math.min(to, Math.max(keep, this.clock + 1)))',
     'Math.min(to, Math.max(keep, this.clock + 1)), {boundary: true})'],
    ['a slice loses the inputs of its first clock', 'let i = first_from(this.inputs, from)',
     'let i = first_from(this.inputs, from + 1)'],
    ['timers are ignored', '{timers: this.timers, boundary}', '{boundary}'],
    ['timers aren\'t in the command', "${this.timers ? ' --timers' : ''}", ''],
    ['cells are lost', 'start.set(cells, CELLS_AT)', 'start.slice().set(cells, CELLS_AT)'],
    ['cells begin a byte late', 'board.slice(CELLS_AT,', 'board.slice(CELLS_AT + 1,'],
    ['a saved board is lost', 'board ? board.slice() : library.power_on()', 'library.power_on()'],
    ['the start isn\'t saved', 'if (!this.is_at_power_on) files.push', 'if (false) files.push'],
    ['a tape loses the inputs of its first clock', '.filter(it => it.clock >= this.clock)',
     '.filter(it => it.clock > this.clock)'],
    ['a tape ends a clock late', 'return this.between(this.kept[0].clock, this.clock);',
     'return this.between(this.kept[0].clock, this.clock + 1);'],
    ['the log ends where the session does', 'const boundary = kept.clock === this.clock;',
     'const boundary = false;'],
    ['a look begins at the kept board', 'if (begin > at) board =', 'if (false) board ='],
    ['a look takes a later kept board', 'first_from(this.kept, clock + 1) - 1)]',
     'first_from(this.kept, clock + 1)) % this.kept.length]'],
    ['exchanged POKEYs: pots', 'i < 11 ? POKEYS_AT[0]', 'i < 11 ? POKEYS_AT[1]'],
    ['exchanged POKEYs: levels', 'this.set(kind - 1,', 'this.set(2 - kind,'],
    ['exchanged POKEYs: lines', "'AB'[kind - 1]", "'BA'[kind - 1]"],
    ['the latch in small letters', 'hex(values[0], 2)', 'hex(values[0], 2).toLowerCase()'],
    ['a level of three channels', '+ words[at + 6];', '+ 0;'],
    ['a level a clock late', 'this.set(kind - 1, level, clock_in(words, at), sums);',
     'this.set(kind - 1, level, clock_in(words, at) + 1, sums);'],
    ['a step forgets its rest', 'this.sum += level * (clock - this.at);', ''],
    ['samples lose their place between slices', 'this.place = (this.place + 1) % TAPS;',
     'this.place = made % TAPS;'],
    ['records without room are cut', 'if (answer.status === NO_ROOM) {', 'if (false) {'],
    ['a refusal is none', 'if (answer.status > JAMMED) throw', 'if (answer.status > 8) throw'],
];

const {program: file, only = ''} = options({only: true});
const {folder} = new Program(file), checks = new Checks();
const whole = fs.readFileSync(path.join(WEB, 'core.js'), 'utf8');

// The test's status over a copy: 1 is a refusal, and null a test that hangs.
function tried(code) {
    const copy = path.join(folder, 'core.js'), test = path.join(HERE, 'session.mjs');
    fs.writeFileSync(copy, code);
    const it = spawnSync(process.execPath, [test, file, '--core', copy, '--short'],
        {timeout: 120000, encoding: 'utf8'});
    const said = (it.stdout.trim() || it.stderr.trim()).split('\n')[0];
    return {said, is_refused: it.status === null || it.status === 1 && said.startsWith('FAILED')};
}

const unchanged = tried(whole);
checks.holds('an unchanged copy passes', !unchanged.is_refused && /, 0 failed/.test(unchanged.said),
    () => unchanged.said);
for (const [what, old, planted] of FAULTS.filter(it => it[0].includes(only))) {
    const count = whole.split(old).length - 1;
    const {said, is_refused} = tried(whole.replace(old, () => planted));
    checks.holds(what, count === 1 && is_refused,
        () => count === 1 ? `isn't refused: ${said}` : `core.js has its text ${count} times`);
    if (is_refused) console.log(`refused: ${what}: ${said.slice(7, 75)}`);
}
process.exitCode = checks.end();
