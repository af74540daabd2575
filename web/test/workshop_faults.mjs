// Plants faults in the workshop's files, one at a time in a copy, and runs workshop.mjs over each,
// which has to refuse every one. The status is 1 where one gets through.
//     node web/test/workshop_faults.mjs PROGRAM
import {spawnSync} from 'node:child_process';
import {cpSync, mkdtempSync, readFileSync, rmSync, writeFileSync} from 'node:fs';
import {tmpdir} from 'node:os';
import {dirname, join, resolve} from 'node:path';
import {fileURLToPath} from 'node:url';

const TEST = dirname(fileURLToPath(import.meta.url)), WEB = dirname(TEST);
// What is wrong, the check that sees it, the file, what stands there, and what is put there.
const FAULTS = [
    ['a number names an address', 'names of the ship', 'names.js',
        'if (is_address && !this.data.has(value))', 'if (!this.data.has(value))'],
    ['an address leads to the next line', 'each address', 'names.js',
        'if (this.sorted[middle].address <= address)',
        'if (this.sorted[middle].address < address)'],
    ['.org is not followed', 'labels behind', 'names.js',
        'if (org) here = value_of(org[1], known);', 'if (org) here = 0;'],
    ['only the first mistake is marked', 'all mistakes', 'build.js',
        "lines[at] = seen.has(at) ? '' : mended(lines[at]);", 'return;'],
    ['a refused line takes its label along', 'keeps what it names', 'build.js',
        "? `${label}:` : '';", "? '' : '';"],
    ['causes of the other source', 'each mistake alone', 'refusals.js',
        '(of === null || of === part) &&', '(of === null || of !== part) &&'],
    ['a break stays where it was', 'lines of breaks', 'editor.js',
        '.map(it => it >= line ? it + by : it);', '.map(it => it);'],
    ['a piece of `go` begins behind its last turn', 'where a piece ends', 'debugger.js',
        'at = Math.max(clock, this.back_step(stop.clock) ?? clock);', 'at = stop.clock;'],
    ['back a step is a turn too far', 'steps', 'debugger.js',
        'const found = this.boundaries(clock, span).at(-1);',
        'const found = this.boundaries(clock, span).at(-2);'],
    ['over ignores the stack', 'calls itself', 'debugger.js',
        'if (this.place_after(at, stop.clock).s === s) return stop;', 'return stop;'],
    ['out ends at the first pull', 'out of it', 'debugger.js',
        'const found = all.find(it => it.s > s + 1);', 'const found = all.find(it => it.s !== s);'],
    ['who wrote is the first change', 'who wrote', 'debugger.js',
        'const found = this.stops_between(from, end, watch).at(-1);',
        'const found = this.stops_between(from, end, watch).at(0);'],
    ['a write of the same byte is not seen', 'who wrote the same', 'debugger.js',
        'if (written_by(image, registers, zero_page).includes(address)) begins.push(clock);', ''],
    ['an interrupt pushes nothing', 'who wrote the same', 'debugger.js',
        'if (before !== null && (this.place(before).s - s & 255) === 3) begins.push(before);', ''],
    ['a write is named that is not over', 'by each kind', 'debugger.js',
        '.filter(it => it + LONGEST_TURN <= clock || this.step(it).clock <= clock);', ''],
    ['an index is left out', 'by each kind', 'writes.js',
        "case 'absolute_y': return [word + y & 0xFFFF];", "case 'absolute_y': return [word];"],
    ['a pointer is read from another place', 'by each kind', 'writes.js',
        "case 'indirect_x': return [pointer(low + x)];",
        "case 'indirect_x': return [pointer(low)];"],
    ['a break at a frame’s end is missed', 'player stops', 'debugger.js',
        'const stop = stops_of(this.script(from, lines, to + 1)).at(-1);',
        'const stop = stops_of(this.script(from, lines, to)).at(-1);'],
    ['a stop leaves the player running', 'player stops', 'player.js',
        'this.run(stop ? stop.clock : to);', 'this.run(to);'],
    ['a profile leaves the inputs out', 'profile', 'profile.js',
        'bytes: session.between(from, to)}', 'bytes: Gravitar.text(`${to} END\\n`)}'],
    ['a slice forgets in which routine it begins', 'in slices', 'profile.js',
        'const to = is_first ? base : address', 'const to = address'],
    ['a worker has no library', 'a worker has', 'worker.js', '\\n${Gravitar.core}\\n', '\\n'],
    ['a job can not be cancelled', 'a job', 'profile_job.js', 'this.is_cancelled = true;', ''],
    ['a job leaves its worker running', 'a job', 'profile_job.js',
        'finally { this.worker?.end(); }', 'finally { }'],
    ['a stroke has the word behind its own', 'has its word', 'vector.js',
        'address: end - 2 * words', 'address: end'],
    ['another image loses the inputs', 'same play', 'replay.js',
        'this.session.inputs = session.inputs.filter(it => it.clock >= from)',
        'this.session.inputs = session.inputs.filter(it => it.clock < from)'],
    ['a kept board is not where it goes on', 'kept board', 'replay.js',
        'const start = board ?? session.start', 'const start = session.start'],
    ['a rename forgets the project', 'projects', 'projects.js', 'this.put(to, it);', ''],
    ['a saved project has the name of its file', 'its name again', 'projects.js',
        'text: file === name ? processor : named', 'text: processor'],
    ['the name stays in the source', 'its name again', 'projects.js',
        'processor: ended ? text + before : text', 'processor'],
    ['a refused line’s mark stays where it was', 'marks of refused', 'editor.js',
        '[line <= head ? line : line + by, it]', '[line, it]'],
    ['a changed line keeps its mark', 'marks of refused', 'editor.js',
        'line <= head || line > behind', 'line <= head || line >= behind'],
    ['W is not in the list of keys', 'list of keys', 'index.html', '<kbd>W</kbd>', ''],
    ['a function is long', 'below 40', 'workshop.js',
        'if (is_busy) this.frame_of_running();', `${'\n'.repeat(40)}`],
    ['a shared file keeps the game before', 'shared again', 'share.js',
        "text.replace(GAME_LINE, '')", 'text'],
];

const program = process.argv[2] && resolve(process.argv[2]);
let refused = 0, passed = 0;
for (const [what, check, name, good, bad] of program ? FAULTS : []) {
    const copy = mkdtempSync(join(tmpdir(), 'gravitar-fault-'));
    cpSync(WEB, copy, {recursive: true});
    const text = readFileSync(join(copy, name), 'utf8');
    if (text.split(good).length !== 2) {
        console.log(`${what}: its place isn't once in ${name}`);
        passed++;
    } else {
        writeFileSync(join(copy, name), text.replace(good, () => bad));
        const words = [join(TEST, 'workshop.mjs'), '--steps', '40', '--only', check, program];
        const it = spawnSync(process.execPath, words,
            {env: {...process.env, WEB: copy}, encoding: 'utf8', timeout: 120000});
        const said = it.stdout.split('\n').find(line => line.startsWith('FAILED '));
        if (it.status === 1 && said) { refused++; console.log(`${what}: refused by "${check}"`); }
        else { passed++; console.log(`${what}: NOT REFUSED`); }
    }
    rmSync(copy, {recursive: true, force: true});
}
console.log(`${refused} refused, ${passed} not refused`);
process.exit(passed || !refused ? 1 : 0);
