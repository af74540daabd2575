// Plants faults in what the workshop does in a browser, one at a time in a copy of the page, and
// runs a check of browser.mjs over each, which has to refuse every one.
//     GRAVITAR=PROGRAM node web/test/workshop_page_faults.mjs
// It takes Chromium, else Firefox. The last line is `N refused, M not refused`; the status is 1
// where one gets through. Without a browser the last line is `0 passed, 0 failed, 1 skipped`.
import {spawnSync} from 'node:child_process';
import {cpSync, mkdtempSync, readFileSync, rmSync, writeFileSync} from 'node:fs';
import {tmpdir} from 'node:os';
import {dirname, join} from 'node:path';
import {fileURLToPath} from 'node:url';
import {Chromium, Firefox} from './driver.mjs';

const TEST = dirname(fileURLToPath(import.meta.url)), WEB = dirname(TEST);
// What is wrong, the check that sees it, the file, what stands there, and what is put there.
const FAULTS = [
    ['a look at the same clock goes to its line again', 'leaves the source', 'workshop.js',
        'reveals: this.revealed_at !== at', 'reveals: true'],
    ['the pause of a new image shows its line', 'leaves the source', 'workshop.js',
        ' || this.assembly.is_replaying', ''],
    ['a running game keeps the mark of its stop', 'marks the lines', 'workshop.js',
        'this.view.show_pc(null);', "if (this.tool === 'debug') this.view.show_pc(null);"],
    ['a running game keeps the mark of a word', 'marks the lines', 'source_view.js',
        'if (pc === null) this.unmark();', ''],
    ['a refused line’s mark stays where it was', 'marks the lines', 'editor.js',
        'this.problems = moved_marks(this.problems, this.lines, lines);', ''],
    ['a project forgets the size of its picture', 'keeps the size', 'play.js',
        'own?.fits ?? this.kept_fit', 'this.kept_fit'],
    ['a project is opened as it was first', 'keeps the size', 'play.js',
        'this.workshop.menu.keep_settings();', ''],
    ['the size is kept by the bytes alone', 'keeps the size', 'play.js',
        'this.shelf.put(\'fit\', `of ${this.name}`, fits);', ''],
    ['a demo has the name of the game', 'shares a game', 'project_menu.js', ", '-demo')", ')'],
    ['a shared game has the name of its file', 'its name again', 'project_menu.js',
        'const game = {name: this.name,', 'const game = {name: plain_name(this.name),'],
    ['an opened game has the name of its file', 'its name again', 'desk.js',
        'const name = opened?.name ?? ', 'const name = '],
    ['the clock of a write is the one behind it', 'steps and goes back', 'moves.js',
        'is ${number_words(it.begin)}', 'is ${number_words(it.clock)}'],
    ['only changes are writes', 'steps and goes back', 'moves.js',
        'debug.last_write(clock, address)', 'debug.last_change(clock, address)'],
    ['a seventeenth byte is watched', 'steps and goes back', 'stops.js',
        'this.watches.length >= MOST_STOPS', 'this.watches.length > MOST_STOPS'],
    ['a byte that is watched counts again', 'steps and goes back', 'stops.js',
        'const is_new = !this.watches.includes(address);', 'const is_new = true;'],
    ['no worker is tried', 'a long play', 'tools.js',
        'start_worker = () => CommandWorker.start(GRAVITAR_MODULE)',
        'start_worker = async () => null'],
    ['all is one slice', 'a long play', 'profile_job.js',
        'this.debug, this.from, this.to);', 'this.debug, this.from, this.to, Infinity);'],
    ['a cancelled profile is shown all the same', 'a long play', 'tools.js',
        '$(\'profile-cancel\').onclick = () => this.cancel();', ''],
];

if (!Chromium.find() && !Firefox.find()) {
    console.log('there is no browser\n0 passed, 0 failed, 1 skipped');
    process.exit(1);
}
const browser = Chromium.find() ? 'chromium' : 'firefox', only = process.argv[2] ?? '';
let refused = 0, passed = 0;
for (const [what, check, name, good, bad] of FAULTS.filter(it => it[0].includes(only))) {
    const copy = mkdtempSync(join(tmpdir(), 'gravitar-fault-'));
    cpSync(WEB, copy, {recursive: true});
    const text = readFileSync(join(copy, name), 'utf8');
    let said = null;
    if (text.split(good).length === 2) {
        writeFileSync(join(copy, name), text.replace(good, () => bad));
        const env = {...process.env, WEB: copy, ONLY: check, BROWSERS: browser};
        const it = spawnSync(process.execPath, [join(TEST, 'browser.mjs')],
            {env, encoding: 'utf8', timeout: 200000});
        said = it.stdout.split('\n').find(line => line.split('FAILED: ')[1]?.includes(check));
    } else console.log(`${what}: its place isn't once in ${name}`);
    if (said) { refused++; console.log(`${what}: refused: ${said.split('FAILED: ')[1]}`); }
    else { passed++; console.log(`${what}: NOT REFUSED`); }
    rmSync(copy, {recursive: true, force: true});
}
console.log(`${refused} refused, ${passed} not refused`);
process.exit(passed || !refused ? 1 : 0);
