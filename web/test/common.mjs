// What the tests share: random numbers from a seed, the program to compare with, a count of checks.
import {spawnSync} from 'node:child_process';
import fs from 'node:fs';
import os from 'node:os';
import path from 'node:path';
import {fileURLToPath} from 'node:url';
import vm from 'node:vm';

export const HERE = path.dirname(fileURLToPath(import.meta.url));
export const WEB = path.dirname(HERE);
export const EXAMPLES = path.join(WEB, '..', 'examples');

// core.js, or a copy of it, as a page has it: a classic script with one global.
export function core_of(file = path.join(WEB, 'core.js')) {
    const scope = vm.createContext({TextEncoder, TextDecoder, WebAssembly, atob, console,
        Uint8Array, Int32Array, Float32Array, Float64Array, DataView});
    vm.runInContext(fs.readFileSync(file, 'utf8'), scope, {filename: file});
    return scope.Gravitar;
}
// The bytes of the module in web/module.js.
export function module_bytes(file = path.join(WEB, 'module.js')) {
    const scope = vm.createContext({});
    vm.runInContext(fs.readFileSync(file, 'utf8'), scope, {filename: file});
    return new Uint8Array(Buffer.from(scope.GRAVITAR_MODULE, 'base64'));
}
export function example(name, at = path.join(EXAMPLES, name)) {
    return ['s', 'v'].map(it => path.resolve(at, `${name}.${it}`));
}

// The same numbers in each run: a xorshift of 32 bits.
export class Random {
    constructor(seed) { this.state = Math.imul(seed + 1, 0x9E3779B1) | 1; }
    next() {
        this.state ^= this.state << 13;
        this.state ^= this.state >>> 17;
        this.state ^= this.state << 5;
        return this.state >>> 0;
    }
    below(count) { return this.next() % count; }
    of(list) { return list[this.below(list.length)]; }
    bytes(count) { return Uint8Array.from({length: count}, () => this.below(256)); }
    // From 0 up to a number, small ones as often as large ones.
    up_to(most) {
        const digits = this.below(Math.ceil(Math.log2(most + 2)));
        return this.below(Math.min(most, 2 ** digits) + 1);
    }
}

export class Checks {
    passed = 0;
    failed = 0;
    // After so many that fail it is the end.
    constructor(most = Infinity) { this.most = most; }
    // Whether two texts, or two lists of bytes, are the same.
    same(what, got, want) {
        const [a, b] = [got, want].map(it => typeof it === 'string' ? Buffer.from(it) : it);
        this.holds(what, Buffer.compare(a, b) === 0, () => difference(a, b));
    }
    holds(what, fact, say = () => '') {
        if (fact) { this.passed++; return; }
        this.failed++;
        if (this.failed <= 20) console.log(`FAILED ${what} ${say()}`);
        if (this.failed >= this.most) process.exit(this.end());
    }
    // What is thrown is a check that failed.
    test(what, doing) {
        try { doing(what); } catch (error) { this.holds(what, false, () => error.stack); }
    }
    // The last line, and the status.
    end() {
        console.log(`${this.passed} passed, ${this.failed} failed`);
        return this.failed ? 1 : this.passed ? 0 : 2;
    }
}
function difference(got, want) {
    const at = got.findIndex((it, i) => it !== want[i]);
    const from = Math.max(0, (at < 0 ? got.length : at) - 40);
    const part = it => JSON.stringify(Buffer.from(it).subarray(from, from + 80).toString('latin1'));
    const lengths = `${got.length} and ${want.length} bytes`;
    return `${lengths}, from ${from} on ${part(got)}, not ${part(want)}`;
}

// The program, run in a folder of its own that is deleted at the end.
export class Program {
    constructor(file) {
        this.file = path.resolve(file);
        this.folder = fs.mkdtempSync(path.join(os.tmpdir(), 'gravitar-sessions-'));
        process.on('exit', () => fs.rmSync(this.folder, {recursive: true}));
    }
    put(name, bytes) { fs.writeFileSync(path.join(this.folder, name), bytes); }
    get(name) { return fs.readFileSync(path.join(this.folder, name)); }
    // Its standard output is a pipe to cat, so that `--save /dev/stdout` can open it again.
    run(...words) {
        const line = ['-c', '"$@" | cat', 'sh', this.file, ...words.map(String)];
        const it = spawnSync('sh', line, this.options());
        if (it.error) throw it.error;
        return {output: it.stdout, note: it.stderr.toString()};
    }
    // A line of a shell that finds `gravitar`.
    shell(line) {
        const PATH = `${path.dirname(this.file)}:${process.env.PATH}`;
        const env = {...process.env, PATH};
        return spawnSync('sh', ['-c', line], {...this.options(), env}).stdout;
    }
    options() { return {cwd: this.folder, maxBuffer: 2 ** 30, timeout: 120000}; }
}

// The words of a command line: a program's name, words such as `--short`, which `names` has as
// false, and words with a value, which it has as true.
export function options(names, words = process.argv.slice(2)) {
    const found = {};
    while (words.length) {
        const word = words.shift(), name = word.replace(/^--/, '');
        if (!word.startsWith('--') && !found.program) found.program = word;
        else if (names[name] === false) found[name] = true;
        else if (names[name] && words.length) found[name] = words.shift();
        else { console.error(`no word ${word} here`); process.exit(2); }
    }
    if (!found.program) { console.error('name the program, gravitar'); process.exit(2); }
    return found;
}
