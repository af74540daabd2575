// The listing of `gravitar asm`, and the names of two sources: addresses beside lines, and labels
// beside addresses. Nothing of the page.
'use strict';

if (typeof require === 'function') globalThis.Gravitar ??= require('./core.js');

const PROCESSOR = 'processor', GENERATOR = 'generator', PARTS = [PROCESSOR, GENERATOR];

// A line without its comment: {label, statement}; a label is a name with a colon.
function parts_of_line(line) {
    const bare = line.replace(/;.*/, '').trim();
    const found = /^([A-Za-z_]\w*)\s*:\s*(.*)$/.exec(bare);
    return found ? {label: found[1], statement: found[2]} : {label: null, statement: bare};
}
function number_of(word) {
    if (/^\$[0-9a-f]+$/i.test(word)) return parseInt(word.slice(1), 16);
    if (/^%[01]+$/.test(word)) return parseInt(word.slice(1), 2);
    return /^\d+$/.test(word) ? Number(word) : undefined;
}
// The value of a sum of numbers and names, or undefined where a name isn't known.
function value_of(expression, known) {
    const [, part, sum] = /^\s*([<>]?)(.*)$/.exec(expression);
    let total = 0, sign = 1;
    for (const word of sum.match(/[-+]|[^-+\s]+/g) ?? []) {
        if (word === '+') continue;
        if (word === '-') { sign = -sign; continue; }
        const value = number_of(word) ?? known.get(word);
        if (value === undefined) return undefined;
        total += sign * value;
        sign = 1;
    }
    return part === '<' ? total & 255 : part === '>' ? total >> 8 & 255 : total;
}

// The lines of a listing, {part, line, address, length}, in the order of their addresses too.
class Listing {
    constructor(text) {
        this.entries = text.split('\n').filter(Boolean).map(it => {
            const [, address, line, bytes] = /^([0-9A-F]{4}) (\d+):(.*)$/.exec(it);
            const at = parseInt(address, 16);
            return {part: at < 0x9000 ? GENERATOR : PROCESSOR, line: Number(line), address: at,
                length: bytes.length / 3, bytes: bytes.trim()};
        });
        this.sorted = [...this.entries].sort((a, b) => a.address - b.address);
        this.by_line = Object.fromEntries(PARTS.map(part => [part, new Map(
            this.entries.filter(it => it.part === part).map(it => [it.line, it]))]));
    }
    // The line whose bytes have an address, or null.
    at(address) {
        let low = 0, high = this.sorted.length;
        while (low < high) {
            const middle = (low + high) >> 1;
            if (this.sorted[middle].address <= address) low = middle + 1; else high = middle;
        }
        const it = this.sorted[low - 1];
        return it && address < it.address + it.length ? it : null;
    }
    // The place among the sorted lines of the one that has an address, or -1.
    place(address) { return this.sorted.indexOf(this.at(address)); }
    on_line(part, line) { return this.by_line[part].get(line) ?? null; }
    // A line itself, or the first one after it that gives bytes.
    from_line(part, line) {
        return this.entries.find(it => it.part === part && it.line >= line) ?? null;
    }
}

// The names of two sources: values of each, and labels and data by their addresses.
class Names {
    constructor(listing, sources) {
        this.listing = listing;
        this.values = new Map();
        this.labels = {[PROCESSOR]: new Map(), [GENERATOR]: new Map()};
        this.data = new Map();
        for (const part of PARTS) this.read(part, sources[part].split('\n'));
        this.sorted = [...this.labels[PROCESSOR], ...this.labels[GENERATOR]]
            .sort((a, b) => a[0] - b[0]);
    }
    read(part, lines) {
        const known = new Map();
        let here = 0;
        lines.forEach((text, i) => {
            const entry = this.listing.on_line(part, i + 1);
            const {label, statement} = parts_of_line(text);
            if (label && (entry?.address ?? here) !== undefined) {
                known.set(label, entry?.address ?? here);
                const all = this.labels[part], at = known.get(label);
                if (!all.has(at)) all.set(at, label);
            }
            this.read_statement(statement, known);
            const org = /^\.org\b(.*)$/i.exec(statement);
            if (org) here = value_of(org[1], known);
            else if (entry) here = entry.address + entry.length;
        });
        for (const [name, value] of known) if (!this.values.has(name)) this.values.set(name, value);
    }
    // A name is that of an address where it has one in hexadecimal digits.
    read_statement(statement, known) {
        const found = /^([A-Za-z_]\w*)\s*=\s*(.+)$/.exec(statement);
        if (!found) return;
        const value = value_of(found[2], known);
        if (value === undefined) return;
        known.set(found[1], value);
        const is_address = /^\$[0-9a-f]{2}([0-9a-f]{2})?$/i.test(found[2].trim());
        if (is_address && !this.data.has(value)) this.data.set(value, found[1]);
    }
    // `turn`, `turn+4` after it as far as a listed line goes, a name of data, or ''.
    name(address) {
        const exact = this.labels[PROCESSOR].get(address) ?? this.labels[GENERATOR].get(address) ??
            this.data.get(address);
        if (exact) return exact;
        if (address < 0x800) return this.near_data(address);
        if (!this.listing.at(address)) return '';
        const before = this.sorted.findLast(it => it[0] <= address);
        const is_near = before && (before[0] < 0x9000) === (address < 0x9000);
        return is_near ? `${before[1]}+${address - before[0]}` : '';
    }
    // `place+1`: a byte of RAM up to three behind one that has a name.
    near_data(address) {
        for (let i = 1; i < 4; i++) {
            if (this.data.has(address - i)) return `${this.data.get(address - i)}+${i}`;
        }
        return '';
    }
    // An address of four hexadecimal digits, a number, or a name; undefined where it is none.
    address(words) {
        const it = words.trim();
        if (this.values.has(it)) return this.values.get(it) & 0xFFFF;
        if (/^[0-9a-f]{4}$/i.test(it)) return parseInt(it, 16);
        const value = value_of(it, this.values);
        return value === undefined || it === '' ? undefined : value & 0xFFFF;
    }
}

if (typeof module === 'object') {
    module.exports = {PROCESSOR, GENERATOR, PARTS, parts_of_line, value_of, Listing, Names};
}
