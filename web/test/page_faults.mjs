// Plants faults in the page's files, one at a time in a copy, and runs player.mjs over each, which
// has to refuse every one. The status is 1 where one gets through.
//     node web/test/page_faults.mjs
import {spawnSync} from 'node:child_process';
import {cpSync, mkdtempSync, readFileSync, rmSync, writeFileSync} from 'node:fs';
import {tmpdir} from 'node:os';
import {dirname, join} from 'node:path';
import {fileURLToPath} from 'node:url';

const TEST = dirname(fileURLToPath(import.meta.url)), WEB = dirname(TEST);
// What is wrong, the file, what stands there (blanks may be ends of lines), and what is put there.
const FAULTS = [
    ['a key has the clock of the frame’s end', 'player.js',
        'this.clock_of_time(it.time, stretch)',
        'to - 1'],
    ['a key is a clock late', 'player.js',
        'Math.floor(from + share * (to - from))',
        'Math.floor(from + share * (to - from)) + 1'],
    ['a stall clamps its keys', 'player.js',
        'const share = (time - begin) / (end - begin || 1);',
        'const share = (time - begin) * 1512 / (to - from);'],
    ['the fraction of a clock is lost', 'player.js',
        'this.exact = Math.max(this.exact, from) + span;',
        'this.exact = to;'],
    ['inputs out of order drop one', 'player.js',
        'clock = Math.max(clock, this.clock_of_time(it.time, stretch));',
        'clock = this.clock_of_time(it.time, stretch);'],
    ['a rewind keeps later inputs', 'player.js',
        'if (this.is_watching()) session.go_back(clock); else session.rewind(clock);',
        'session.go_back(clock);'],
    ['a tape that is watched is cut by a rewind', 'player.js',
        'if (this.is_watching()) session.go_back(clock); else session.rewind(clock);',
        'session.rewind(clock);'],
    ['held keys are forgotten after a pause', 'player.js',
        'if (!this.is_watching()) this.agree();',
        ''],
    ['keys of a pause are forgotten', 'player.js',
        'else this.values.set(source, value);',
        ''],
    ['a tape runs past its end', 'player.js',
        'if (watching) to = Math.min(to, session.tape_end);',
        ''],
    ['a look takes the session along', 'player.js',
        "this.state = clock === this.end ? 'paused' : 'looking';",
        "this.state = clock === this.end ? 'paused' : 'looking'; this.session.rewind(clock);"],
    ['what was seen keeps what a rewind took', 'player.js',
        'if (this.seen) this.seen = [records_before(Gravitar.joined(this.seen), ' +
        'session.clock)];',
        ''],
    ['switches are set on a tape too late', 'player.js',
        'session.set(port, byte);',
        'session.set(port, byte, session.clock + 1);'],
    ['keys stay down when the page is left', 'player.js',
        'if (value && !is_analog(source)) this.move(source, 0, time);',
        ''],
    ['a key that goes up as a game begins stays down', 'player.js',
        'this.settle_queue(); this.seen &&= [];',
        'this.queue = []; this.seen &&= [];'],
    ['a mouse that moves takes over from a tape', 'player.js',
        'if (!pressed) return;',
        ''],
    ['a press that changes nothing leaves the tape on', 'player.js',
        'this.session.drop(clock + 1);',
        ''],
    ['a button is 1 while it is down', 'controls.js',
        'byte = down === Boolean(it.sets)',
        'byte = down !== Boolean(it.sets)'],
    ['one of two keys of a bit lets it go', 'controls.js',
        'const down = mine.some(other => other.bit === it.bit && !other.stays && ' +
        'is_down(other));',
        'const down = is_down(it);'],
    ['left and right of Gravitar are exchanged', 'controls.js',
        "control('left', 'ArrowLeft', 'IN3.3'), control('right', 'ArrowRight', 'IN3.2')",
        "control('left', 'ArrowLeft', 'IN3.2'), control('right', 'ArrowRight', 'IN3.3')"],
    ['a pot counts to 255', 'controls.js',
        'const POT_MOST = 228;',
        'const POT_MOST = 255;'],
    ['strokes share a key', 'picture.js',
        'low ^= low >>> 13;',
        'low = 0;'],
    ['a stroke that is drawn again counts twice', 'picture.js',
        'if (drawn.has(key)) continue;',
        ''],
    ['red and blue are exchanged', 'picture.js',
        'return [2, 1, 0].map(bit => (stroke.colour',
        'return [0, 1, 2].map(bit => (stroke.colour'],
    ['a picture is upside down', 'picture.js',
        '`<path stroke="rgb(${ink})" d="M${s.x0} ${-s.y0}L${s.x1} ${-s.y1}"/>`',
        '`<path stroke="rgb(${ink})" d="M${s.x0} ${s.y0}L${s.x1} ${s.y1}"/>`'],
    ['a log exchanges its POKEYs', 'log.js',
        'A: 1, B: 2',
        'A: 2, B: 1'],
    ['the difference of logs is a line late', 'log.js',
        'return i === this.count && i === other.count ? null : i;',
        'return i === this.count && i === other.count ? null : i + 1;'],
    ['a log takes a clock that falls', 'log.js',
        "if (at && log.clock[at] < log.clock[at - 1]) this.bad('a clock below the " +
        "one before');",
        ''],
    ['levels of a log miss their last clock', 'log.js',
        'for (let i = this.first_at(from + 1); i < this.count && this.clock[i] <= to; i++)',
        'for (let i = this.first_at(from + 1); i < this.count && this.clock[i] < to; i++)'],
    ['a sample of each part is lost', 'sound.js',
        'this.last = this.parts[0][this.at++];',
        'this.last = this.parts[0][this.at++ + 1] ?? 0;'],
    ['a device that sleeps is sent samples', 'sound.js',
        'if (!this.is_running()) { this.stale = true; return; }',
        'if (!this.line) return;'],
    ['the queue isn’t held', 'sound.js',
        'static BEND = 0.005;',
        'static BEND = 0;'],
];

function place_of(code) {
    const escaped = code.replace(/[.*+?^${}()|[\]\\]/g, '\\$&');
    return new RegExp(escaped.replace(/ /g, '\\s+'), 'g');
}

let refused = 0, passed = 0;
for (const [what, name, good, bad] of FAULTS) {
    const copy = mkdtempSync(join(tmpdir(), 'gravitar-fault-'));
    cpSync(WEB, copy, {recursive: true});
    const text = readFileSync(join(copy, name), 'utf8');
    if (!place_of(good).test(text)) {
        console.log(`${what}: its place isn't in ${name}`);
        passed++;
    } else {
        writeFileSync(join(copy, name), text.replace(place_of(good), () => bad));
        const it = spawnSync(process.execPath, [join(TEST, 'player.mjs')],
            {env: {...process.env, WEB: copy}, encoding: 'utf8', timeout: 60000});
        const said = it.stdout.split('\n').find(line => line.startsWith('FAILED: ')) ??
            it.stderr.split('\n').find(Boolean);
        if (it.status === 0) { passed++; console.log(`${what}: NOT REFUSED`); }
        else { refused++; console.log(`${what}: refused by "${said?.split(': ')[1]}"`); }
    }
    rmSync(copy, {recursive: true, force: true});
}
console.log(`${refused} refused, ${passed} not refused`);
process.exit(passed || !refused ? 1 : 0);
