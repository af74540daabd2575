// Projects that a browser keeps by name: two sources, the table of keys, and whether the picture is
// fitted; and their sources as files.
// Nothing of the page but, where there is one, its storage.
'use strict';

if (typeof require === 'function') Object.assign(globalThis, require('./names.js'));

const PROJECT = 'gravitar project ';

function is_project(it) {
    return Boolean(it) && typeof it.processor === 'string' && typeof it.generator === 'string';
}

// What a file is called: letters, digits and `_.-` of a name alone.
function plain_name(name) { return name.replace(/[^\w.-]+/g, '_'); }

const NAME_LINE = /(^|\n); gravitar project: (.*)(\n?)$/;
/* The two sources as files {name, text}. Where a file can't have the project's name, that stands in
 * a comment behind the last line, so that no line has another number. The comment ends with the end
 * of a line where the source does. */
function saved_sources(name, {processor, generator}) {
    const file = plain_name(name), is_ended = /(^|\n)$/.test(processor);
    const line = `; gravitar project: ${name.replace(/[\0-\x1f]/g, ' ')}`;
    const named = is_ended ? `${processor}${line}\n` : `${processor}\n${line}`;
    return [{name: `${file}.s`, text: file === name ? processor : named},
        {name: `${file}.v`, text: generator}];
}
// The name and the sources again, {name, sources}; `stem` is what the file is called.
function opened_sources(stem, {processor, generator}) {
    const found = NAME_LINE.exec(processor);
    if (!found) return {name: stem, sources: {processor, generator}};
    const [, before, name, ended] = found, text = processor.slice(0, found.index);
    return {name, sources: {processor: ended ? text + before : text, generator}};
}

class Projects {
    // `storage` is localStorage, or null where nothing is kept: then the page's memory has them.
    constructor(storage) { this.storage = storage; this.memory = new Map(); }
    static of_browser() {
        try {
            globalThis.localStorage.setItem('gravitar', '1');
            return new Projects(globalThis.localStorage);
        } catch { return new Projects(null); }
    }
    keeps() { return this.storage !== null; }
    names() {
        const all = new Set(this.memory.keys());
        for (let i = 0; i < (this.storage?.length ?? 0); i++) {
            const key = this.storage.key(i);
            if (key.startsWith(PROJECT)) all.add(key.slice(PROJECT.length));
        }
        return [...all].filter(it => this.get(it)).sort();
    }
    get(name) {
        try {
            const text = this.storage?.getItem(PROJECT + name) ?? this.memory.get(name) ?? 'null';
            const it = JSON.parse(text);
            return is_project(it) ? it : null;
        } catch { return null; }
    }
    // Whether the browser keeps it: a full storage doesn't.
    put(name, project) {
        const text = JSON.stringify(project);
        this.memory.set(name, text);
        try { this.storage?.setItem(PROJECT + name, text); } catch { return false; }
        return this.storage !== null;
    }
    remove(name) {
        this.memory.delete(name);
        this.storage?.removeItem(PROJECT + name);
    }
    // A name that no project has: `ship`, `ship 2` and so on.
    free(name) {
        const stem = name.trim() || 'game', taken = new Set(this.names());
        if (!taken.has(stem)) return stem;
        for (let i = 2; ; i++) if (!taken.has(`${stem} ${i}`)) return `${stem} ${i}`;
    }
    rename(name, other) {
        const to = this.free(other), it = this.get(name);
        if (!it || to === name) return name;
        this.put(to, it);
        this.remove(name);
        return to;
    }
}

if (typeof module === 'object') {
    module.exports = {Projects, is_project, plain_name, saved_sources, opened_sources};
}
