// What files are, by their bytes and names, and how they are handed to a person. Nothing of the
// page.
'use strict';

if (typeof require === 'function') globalThis.Gravitar ??= require('./core.js');

const FILE_KINDS =
    'an image has 43,008 bytes, a saved board 4,356, cells 64; sources end in .s and .v; ' +
    'a tape has lines such as "302400 IN3 FB", a log "S 8036 0 0 5 5 1 10"';

// image, board, cells, processor, generator, tape, log, or null where nobody can tell.
function kind_of_file(name, bytes) {
    if (/\.s$/i.test(name)) return 'processor';
    if (/\.v$/i.test(name)) return 'generator';
    const head = Gravitar.string_of(bytes.subarray(0, 100));
    if (/^[SABLWEX] \d+( |\r?\n|$)/.test(head)) return 'log';
    if (/\.tape$/i.test(name) || /^\d+ (IN[034]|[PQ][0-7]|END)\b/.test(head)) return 'tape';
    if (/\.log$/i.test(name)) return 'log';
    const lengths = {[Gravitar.IMAGE_LEN]: 'image', [Gravitar.BOARD_LEN]: 'board',
        [Gravitar.CELLS_LEN]: 'cells'};
    return lengths[bytes.length] ?? null;
}

// What a person gets to read about a file that is nothing of these.
function unknown_file(name, bytes) {
    const length = new Intl.NumberFormat('en').format(bytes.length);
    const head = bytes.length ? `it has ${length} bytes` : 'it is empty';
    return `${name}: ${head}. ${FILE_KINDS[0].toUpperCase()}${FILE_KINDS.slice(1)}.`;
}

// A refused source or tape: the library's words, and the line they are about.
function refusal_words(error, sources = {}) {
    const source = sources[error.status];       // 4 the tape, 8 the processor's, 9 the generator's
    if (!source || !error.place) return String(error.message ?? error);
    const line = Gravitar.string_of(source.bytes).split('\n')[error.place - 1] ?? '';
    const number = String(error.place).padStart(5);
    return `${source.name}: ${error.message}\n${number}  ${line.trimEnd()}`;
}

// Files that belong together, by their kinds: two logs at most, or one of each kind of a game's
// files. `left` has those that nothing is done with.
function sort_files(files) {
    const sorted = {logs: [], unknown: [], left: []};
    for (const it of files) {
        const kind = kind_of_file(it.name, it.bytes);
        if (kind === null) sorted.unknown.push(it);
        else if (kind === 'log' && sorted.logs.length < 2) sorted.logs.push(it);
        else if (kind === 'log' || sorted[kind]) sorted.left.push(it);
        else sorted[kind] = it;
    }
    const {logs, unknown, left, ...game} = sorted;
    if (logs.length) left.push(...Object.values(game));
    else if (game.processor && game.generator && game.image) left.push(game.image);
    return sorted;
}

function stem_of(name) { return name.replace(/\.[^.]*$/, '') || name; }

if (typeof module === 'object') module.exports = {kind_of_file, unknown_file, refusal_words,
    sort_files, stem_of};
