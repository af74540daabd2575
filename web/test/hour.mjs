// An hour of the ship at a call a frame, with keys: memory, time, looks, and the last board.
//     node hour.mjs PROGRAM [--minutes N]
// The last line is `N passed, M failed`. Times are this machine's.
import fs from 'node:fs';
import {performance} from 'node:perf_hooks';
import {Checks, Program, Random, core_of, example, module_bytes, options} from './common.mjs';

const words = options({minutes: true}), minutes = Number(words.minutes ?? 60);
const G = core_of(), library = await G.Library.load(module_bytes());
const program = new Program(words.program), checks = new Checks(), random = new Random(1);
const sources = example('ship').map(it => new Uint8Array(fs.readFileSync(it)));
const session = new G.Session(library, library.assemble(...sources));
const end = minutes * 60 * G.HZ;
let most = 0;

// Megabytes of this process.
function measure() { most = Math.max(most, Math.round(process.memoryUsage().rss / 2 ** 20)); }
// How many records came, and the milliseconds of a frame.
function play() {
    const begin = performance.now();
    let records = 0;
    for (let frame = 0; session.clock < end; frame++) {
        const byte = 255 - (1 << random.below(4)) * random.below(2);
        const clock = session.clock + random.below(G.FRAME);
        if (random.below(6) === 0) session.set('IN3', byte, clock);
        records += session.run(Math.min(end, session.clock + G.FRAME)).length / G.RECORD_LEN;
        if (frame % 1000 === 0) measure();
    }
    return {records, frame: (performance.now() - begin) / (end / G.FRAME)};
}
// The milliseconds of looks at random clocks, each with two frames of records, from the least on.
function look(count) {
    const times = [];
    for (let i = 0; i < count; i++) {
        const clock = random.next() * 4 % end, begin = performance.now();
        session.look(clock, clock - 2 * G.FRAME);
        times.push(performance.now() - begin);
    }
    return times.sort((a, b) => a - b);
}

const {records, frame} = play(), times = look(1000);
measure();
console.log(`${minutes} minutes: ${frame.toFixed(3)} ms a frame, ${records} records, ` +
    `${session.inputs.length} inputs, ${session.kept.length} boards kept, ${most} MB at most`);
console.log(`a look: ${times[500].toFixed(1)} ms in the median, ${times[999].toFixed(1)} at most`);
checks.holds('memory under 300 MB', most < 300);
checks.holds('a look under 50 ms', times[999] < 50);
program.put('it.img', session.image);
program.put('it.tape', session.tape());
program.run('run', 'it.img', 'it.tape', '--save', 'end.board');
const last = session.step(session.board, session.clock, {boundary: true}).board;
checks.same('the last board', last, program.get('end.board'));
process.exitCode = checks.end();
