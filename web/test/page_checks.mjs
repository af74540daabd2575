// What the checks of the page share: the program, files, comparisons, what is done with the page.
import {execFileSync} from 'node:child_process';
import {existsSync, mkdirSync, mkdtempSync, readFileSync, rmSync, writeFileSync} from 'node:fs';
import {tmpdir} from 'node:os';
import {dirname, join, resolve} from 'node:path';
import {fileURLToPath, pathToFileURL} from 'node:url';
import {limited, wait} from './driver.mjs';

const WEB = dirname(dirname(fileURLToPath(import.meta.url)));
export const ROOT = dirname(WEB);
export const PROGRAM = process.env.GRAVITAR && resolve(process.env.GRAVITAR);
export const PAGE = pathToFileURL(join(process.env.WEB ?? WEB, 'index.html')).href;
const SHOTS = process.argv[2] && resolve(process.argv[2]);
export const WORK = mkdtempSync(join(tmpdir(), 'gravitar-web-'));
const CHECK_LIMIT = 120000;                     // milliseconds of a check
export const ship = name => join(ROOT, 'examples', 'ship', `ship.${name}`);

export function equal(got, want, what) {
    const [a, b] = [got, want].map(it => JSON.stringify(it));
    if (got !== want) throw new Error(`${what}: got ${a}, want ${b}`);
}
export function holds(is_so, what) { if (!is_so) throw new Error(what); }
export function file(name, bytes) {
    const path = join(WORK, name);
    writeFileSync(path, bytes);
    return path;
}
export function program(...words) {
    return execFileSync(PROGRAM, words,
        {cwd: WORK, maxBuffer: 1 << 30, timeout: 60000, stdio: 'pipe'}).toString();
}
// The first line at which two logs differ.
export function same_log(got, want, what) {
    if (got === want) return;
    const a = got.split('\n'), b = want.split('\n'), i = a.findIndex((it, k) => it !== b[k]);
    const [x, y] = [a[i], b[i]].map(it => JSON.stringify(it));
    throw new Error(`${what}: line ${i + 1} is ${x}, and not ${y}`);
}
// What the page saw ends inside an instruction; the program goes on to the next boundary.
export function seen_log(seen, want, clock, what) {
    const lines = want.split('\n'), many = seen.split('\n').length - 1;
    same_log(seen, lines.slice(0, many).map(it => `${it}\n`).join(''), what);
    const rest = lines.slice(many, -2);
    holds(rest.every(it => Number(it.split(' ')[1]) >= clock), `${what}: ${rest[0]} wasn't seen`);
}

export class Checks {
    constructor(name, browser) { Object.assign(this, {name, browser, passed: 0, failed: 0}); }
    async check(what, doing) {
        const {problems} = this.browser;
        problems.length = 0;
        try {
            await limited(doing(), what, CHECK_LIMIT);
            equal(problems.join('\n'), '', 'the console');
            this.passed++;
            console.log(`${this.name}: ${what}`);
        } catch (error) {
            this.failed++;
            console.log(`${this.name}: FAILED: ${what}: ${error.message}`);
        }
    }
    async shot(state) {
        if (!SHOTS) return;
        mkdirSync(SHOTS, {recursive: true});
        await this.browser.screenshot(join(SHOTS, `${this.name}-${state}.png`));
    }

    // ---- what is done with the page

    get(id) { return this.browser.evaluate(`$('${id}').textContent`); }
    click(id) { return this.browser.evaluate(`$('${id}').click()`); }
    // Code that gives nothing back.
    run(code) { return this.browser.evaluate(`(() => { ${code}; })()`); }
    clock() { return this.browser.evaluate('page.player.session.clock'); }
    tape() { return this.browser.evaluate('Gravitar.string_of(page.player.session.tape())'); }
    seen() { return this.browser.evaluate('Gravitar.lines_of(Gravitar.joined(page.player.seen))'); }
    // An example of the menu.
    choose(name) { return this.run(`$('example').value = '${name}'; $('example').onchange()`); }
    async open(...paths) { await this.browser.files('#files', paths); await wait(250); }
    // A file that a button of the page saves.
    async save(what, name) {
        const path = join(this.browser.downloads, name);
        rmSync(path, {force: true});
        await this.click(`save-${what}`);
        for (let i = 0; i < 200 && !existsSync(path); i++) await wait(50);
        await wait(100);
        return readFileSync(path);
    }
    async start(hash = '') {
        await this.browser.load('about:blank');
        await this.browser.load(PAGE + hash);
        await this.browser.until('window.page?.player.session?.clock > 200000');
    }
    // What was seen, and what the program makes of the saved tape.
    async compare(image, what, {board, options = []} = {}) {
        const {browser} = this;
        const name = await browser.evaluate('page.desk.name');
        const tape = file('played.tape', await this.save('tape', `${name}.tape`));
        if (board) options.push('--state',
            file('played.board', readFileSync(join(browser.downloads, `${name}.board`))));
        const want = program('run', image, tape, ...options);
        const seen = await this.seen();
        seen_log(seen, want, await this.clock(), `${what}: what was seen`);
        same_log((await this.save('log', `${name}.log`)).toString(), want,
            `${what}: the saved log`);
        return {want, tape: readFileSync(tape, 'utf8'), seen};
    }
}
