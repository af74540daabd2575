// Logs of `gravitar run` (docs/FORMATS.md) in columns: 35 bytes a line, whatever the text was.
// Nothing here knows a browser.
'use strict';

const LOG_LETTERS = 'SABLWEXC';
const LOG_KIND = Object.freeze({S: 0, A: 1, B: 2, L: 3, W: 4, E: 5, X: 6, C: 7});
// How many words follow the letter, and from which of them on they are hexadecimal.
const LOG_WORDS = [7, 5, 5, 2, 1, 1, 3, 1];
const LOG_HEX = [9, 9, 9, 2, 9, 9, 2, 9];

class LogError extends Error {}

class Log {
    static BLOCK = 4096;
    // Room for a count of lines, all of which follow one after another.
    constructor(lines) {
        this.count = 0;
        this.clock = new Float64Array(lines);
        this.kind = new Uint8Array(lines);
        this.values = new Int32Array(4 * lines);
        this.ink = new Uint8Array(2 * lines);
        // The last A line and the last B line before each block, or -1.
        this.marks = new Int32Array(2 * Math.ceil(lines / Log.BLOCK) + 2);
        this.marks.set([-1, -1]);
        this.last = [-1, -1];
        this.cost = null;
    }
    get end() { return this.count ? this.clock[this.count - 1] : 0; }
    get start() { return this.count ? this.clock[0] : 0; }

    // The first line at a clock or after it.
    first_at(clock) {
        let low = 0, high = this.count;
        while (low < high) {
            const middle = (low + high) >> 1;
            if (this.clock[middle] < clock) low = middle + 1; else high = middle;
        }
        return low;
    }
    line_text(i) {
        const v = this.values.subarray(4 * i, 4 * i + 4), kind = this.kind[i];
        const hex = (n, width) => n.toString(16).toUpperCase().padStart(width, '0');
        const head = `${LOG_LETTERS[kind]} ${this.clock[i]}`;
        if (kind === 0) return `${head} ${v.join(' ')} ${this.ink[2 * i]} ${this.ink[2 * i + 1]}`;
        if (kind < 3) return `${head} ${v.join(' ')}`;
        if (kind === 3) return `${head} ${hex(v[0], 2)}`;
        return kind === 6 ? `${head} ${hex(v[0], 4)} ${hex(v[1], 2)}` : head;
    }
    stroke(i) {
        const v = this.values;
        return {clock: this.clock[i], x0: v[4 * i], y0: v[4 * i + 1], x1: v[4 * i + 2],
                y1: v[4 * i + 3], colour: this.ink[2 * i], intensity: this.ink[2 * i + 1], line: i};
    }
    // The strokes from a clock to another one, both included.
    strokes(from, to) {
        const list = [];
        for (let i = this.first_at(from); i < this.count && this.clock[i] <= to; i++) {
            if (this.kind[i] === 0) list.push(this.stroke(i));
        }
        return list;
    }
    // The levels of both POKEYs before a line: those of the last A and B line, or 0.
    levels(i) {
        const block = Math.floor(i / Log.BLOCK);
        const last = [this.marks[2 * block], this.marks[2 * block + 1]];
        for (let k = Log.BLOCK * block; k < i; k++) {
            const kind = this.kind[k];
            if (kind === LOG_KIND.A || kind === LOG_KIND.B) last[kind - 1] = k;
        }
        return last.map(k => k < 0 ? [0, 0, 0, 0] :
            Array.from(this.values.subarray(4 * k, 4 * k + 4)));
    }
    // A line is complete: it counts.
    close_line(kind) {
        const {last, marks} = this, at = this.count++;
        this.kind[at] = kind;
        if (kind === LOG_KIND.A || kind === LOG_KIND.B) last[kind - 1] = at;
        if (this.count % Log.BLOCK === 0) marks.set(last, 2 * this.count / Log.BLOCK);
    }
    // The A and B lines after a clock up to another one, as the records that a mixer takes.
    level_records(from, to) {
        const words = [];
        for (let i = this.first_at(from + 1); i < this.count && this.clock[i] <= to; i++) {
            const kind = this.kind[i], clock = this.clock[i], v = this.values;
            if (kind !== 1 && kind !== 2) continue;
            words.push(clock % 4294967296 | 0, Math.floor(clock / 4294967296), kind,
                v[4 * i], v[4 * i + 1], v[4 * i + 2], v[4 * i + 3], 0, 0, 0);
        }
        return new Uint8Array(Int32Array.from(words).buffer);
    }
    same_line(i, other, k) {
        if (this.kind[i] !== other.kind[k] || this.clock[i] !== other.clock[k]) return false;
        for (let j = 0; j < 4;
            j++) if (this.values[4 * i + j] !== other.values[4 * k + j]) return false;
        return this.ink[2 * i] === other.ink[2 * k] && this.ink[2 * i + 1] === other.ink[2 * k + 1];
    }
    // The first line at which two logs differ, or null where they are the same.
    difference(other) {
        const many = Math.min(this.count, other.count);
        let i = 0;
        while (i < many && this.same_line(i, other, i)) i++;
        return i === this.count && i === other.count ? null : i;
    }
}

// Reads the bytes of a log, a part at a time so that a page stays alive.
class LogReader {
    constructor(bytes) {
        this.bytes = bytes;
        this.at = 0;
        this.line = 0;
        let lines = 1;
        for (let i = 0; i < bytes.length; i++) if (bytes[i] === 10) lines++;
        this.log = new Log(lines);
    }
    bad(why = 'no line of a log') { throw new LogError(`line ${this.line}: ${why}`); }

    // Reads for some milliseconds; whether all is read.
    read(milliseconds = Infinity) {
        const until = Date.now() + milliseconds;
        while (this.at < this.bytes.length) {
            this.read_line();
            if (this.line % 4096 === 0 && Date.now() >= until) return false;
        }
        return true;
    }
    read_line() {
        const {bytes, log} = this, letter = String.fromCharCode(bytes[this.at++]);
        this.line++;
        const kind = LOG_KIND[letter], at = log.count;
        if (kind === undefined) this.bad();
        let field = 0;
        while (this.at < bytes.length && bytes[this.at] !== 10) {
            if (bytes[this.at++] !== 32) this.bad();
            const value = this.read_number(++field >= LOG_HEX[kind]);
            if (field === 1) log.clock[at] = value;
            else if (field < 6) log.values[4 * at + field - 2] = value;
            else if (field < 8) log.ink[2 * at + field - 6] = value;
        }
        this.at++;
        if (field !== LOG_WORDS[kind]) this.bad();
        if (kind === LOG_KIND.C) { log.cost = log.clock[at]; return; }
        if (at && log.clock[at] < log.clock[at - 1]) this.bad('a clock below the one before');
        log.close_line(kind);
    }
    read_number(hex) {
        const bytes = this.bytes, from = this.at, base = hex ? 16 : 10;
        const minus = bytes[this.at] === 45;
        let value = 0;
        if (minus) this.at++;
        for (; this.at < bytes.length; this.at++) {
            const byte = bytes[this.at];
            if (byte >= 48 && byte <= 57) value = value * base + byte - 48;
            else if (hex && byte >= 65 && byte <= 70) value = value * 16 + byte - 55;
            else break;
        }
        if (this.at === from + minus) this.bad();
        return minus ? -value : value;
    }
}

function read_log(bytes) {
    const reader = new LogReader(bytes);
    reader.read();
    return reader.log;
}

if (typeof module === 'object') module.exports = {Log, LogError, LogReader, read_log};
