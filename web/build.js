// Two sources that are assembled: image, listing, names, and all lines that are refused. Nothing of
// the page.
'use strict';

if (typeof require === 'function') {
    globalThis.Gravitar ??= require('./core.js');
    Object.assign(globalThis, require('./names.js'));
}

const SOURCE_NAMES = {[PROCESSOR]: 'processor.s', [GENERATOR]: 'generator.v'};

// `asm` over two texts: {image, listing}, or {problem: {part, line, cause}}; line 0 is the whole.
function assembled(library, sources) {
    const words = ['asm', SOURCE_NAMES.processor, SOURCE_NAMES.generator, 'image'];
    const files = PARTS.map(part =>
        ({name: SOURCE_NAMES[part], bytes: Gravitar.text(sources[part])}));
    const it = library.command(words, files), note = Gravitar.string_of(it.note).trim();
    if (it.status === 0) return {image: it.stores[0].bytes, listing: Gravitar.string_of(it.out)};
    const part = note.includes(SOURCE_NAMES.generator) ? GENERATOR : PROCESSOR;
    const [, line, cause] = /: line (\d+): (.*)$/.exec(note) ?? [0, '0', note.split(': ').at(-1)];
    return {problem: {part, line: Number(line), cause}};
}

// A line that is refused, such that the assembler comes to those after it: what it names stays.
function mended(line) {
    const {label, statement} = parts_of_line(line);
    const name = /^([A-Za-z_]\w*)\s*=/.exec(statement);
    if (name && name[1].length < 33 && !/^[axy]$/i.test(name[1])) return `${name[1]} = 0`;
    return label && label.length < 33 && !/^[axy]$/i.test(label) ? `${label}:` : '';
}

/* The refused lines of one source, one by one: {part, line, cause}. The assembler names the first;
 * each next one is the first where those before it are mended. So a name that a refused line gives
 * has the value 0 then, and what follows from that may be refused too. */
function* problems_of(library, part, text, most = 50) {
    const sources = {[PROCESSOR]: '', [GENERATOR]: ''}, lines = text.split('\n'), seen = new Set();
    for (let i = 0; i < most; i++) {
        sources[part] = lines.join('\n');
        const {problem} = assembled(library, sources);
        if (!problem) return;
        if (problem.line === 0) { yield problem; return; }
        const at = problem.line - 1;
        if (!seen.has(at)) yield problem;
        lines[at] = seen.has(at) ? '' : mended(lines[at]);
        // A label that was given before: the one before it stays.
        if (problem.cause === 'twice named') lines[at] = '';
        seen.add(at);
    }
}

// Sources that were assembled: {image, listing, names, problem}, the last one where they weren't.
class Build {
    constructor(library, sources) {
        this.sources = {...sources};
        const it = assembled(library, sources);
        this.problem = it.problem ?? null;
        if (this.problem) return;
        this.image = it.image;
        this.listing = new Listing(it.listing);
        this.names = new Names(this.listing, sources);
    }
    get is_good() { return this.problem === null; }
}

if (typeof module === 'object') {
    module.exports = {assembled, problems_of, mended, Build};
}
