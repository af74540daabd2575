#!/usr/bin/env node
/* The command line of gravitar on every machine that has Node 20 or later:
 *
 *     node web/gravitar.mjs run IMAGE TAPE > LOG
 *
 * Same words, texts, notes, stores and statuses as the program's (docs/COMMANDS.md), by one call of
 * the module in module.js over the files that the words name. The module isn't proved. All is written
 * when the command is done. A store writes its file in place.
 */
import {closeSync, openSync, readFileSync, readSync, writeFileSync, writeSync} from 'node:fs';
import {fileURLToPath} from 'node:url';
import {runInThisContext} from 'node:vm';

const OUTSIDE = 6, OUTSIDE_NOTE = 'gravitar: outside fault\n';
const NO_MEMORY = 7, NO_MEMORY_NOTE = 'gravitar: no memory\n';
const TAPE_LIMIT = 1 << 24, PIECE = 1 << 16;

// The scripts of the page, which are no modules of Node.
function load_scripts(...names) {
    for (const name of names) {
        const path = fileURLToPath(new URL(name, import.meta.url));
        runInThisContext(readFileSync(path, 'utf8'), {filename: path});
    }
}

// Writes all of some bytes to a stream, which may be a pipe that is full for now.
function write_all(stream, bytes) {
    for (let at = 0; at < bytes.length;) {
        try {
            at += writeSync(stream, bytes, at);
        } catch (error) {
            if (error.code !== 'EAGAIN') throw error;
        }
    }
}

// The names that a command line may read: all words but those that it only stores under.
function names_read(words) {
    const read = words.filter((word, i) =>
        word && !word.startsWith('--') && words[i - 1] !== '--save');
    return words[0] === 'asm' ? read.slice(1, 3) : read.slice(1);
}

// The first bytes of a file, one more than the longest that the program reads, as a tape may be.
function read_first(name) {
    const file = openSync(name, 'r'), pieces = [];
    try {
        for (let left = TAPE_LIMIT + 1; left > 0;) {
            const piece = Buffer.alloc(Math.min(left, PIECE));
            const count = readSync(file, piece);
            if (count === 0) break;
            pieces.push(piece.subarray(0, count));
            left -= count;
        }
    } finally {
        closeSync(file);
    }
    return Buffer.concat(pieces);
}

// The files that the words name; null is one that is there and can't be read.
function files_of(words) {
    const found = new Map();
    for (const name of names_read(words)) {
        if (found.has(name)) continue;
        try {
            found.set(name, read_first(name));
        } catch (error) {
            if (error.code !== 'ENOENT') found.set(name, null);
        }
    }
    return found;
}

// The answer's parts, or null where the program would meet a fault of a file.
function answer_to(library, words) {
    const found = files_of(words);
    const given = [...found].filter(it => it[1]).map(([name, bytes]) => ({name, bytes}));
    const answer = library.command(words, given);
    // It asked for a file that is there and can't be read.
    const asked = /^gravitar: (.*): absent\n$/s.exec(new TextDecoder().decode(answer.note));
    return answer.status === 5 && asked && found.get(asked[1]) === null ? null : answer;
}

function perform(answer) {
    write_all(1, answer.out);
    write_all(2, answer.note);
    for (const {name, bytes} of answer.stores) writeFileSync(name, bytes);
    return answer.status;
}

async function main(words) {
    load_scripts('core.js', 'module.js');
    const library = await globalThis.Gravitar.Library.load(globalThis.GRAVITAR_MODULE);
    try {
        const answer = answer_to(library, words);
        if (answer) return perform(answer);
    } catch (error) {
        if (error.status === NO_MEMORY) {
            write_all(2, new TextEncoder().encode(NO_MEMORY_NOTE));
            return NO_MEMORY;
        }
    }
    try { write_all(2, new TextEncoder().encode(OUTSIDE_NOTE)); } catch { /* no note, then */ }
    return OUTSIDE;
}

process.exitCode = await main(process.argv.slice(2));
