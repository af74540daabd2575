// The two sources on the screen: which one is shown, what stands beside its lines, and which lines
// are marked. Names and addresses are those of the last good build.
'use strict';

class SourceView {
    constructor(workshop) {
        this.workshop = workshop;
        const editor = part => new Editor(part, {changed: () => workshop.assembly.changed(),
            clicked: line => workshop.stops.toggle_line(part, line),
            moved: line => workshop.words.cursor(part, line)});
        this.editors = {processor: editor('processor'), generator: editor('generator')};
        $('editors').append(this.editors.processor.box, this.editors.generator.box);
        for (const it of document.querySelectorAll('#source-tabs [data-part]')) {
            it.onclick = () => this.show_part(it.dataset.part);
        }
    }
    get build() { return this.workshop.build; }
    get sources() {
        return {processor: this.editors.processor.text, generator: this.editors.generator.text};
    }
    set({processor, generator}) {
        this.editors.processor.set(processor);
        this.editors.generator.set(generator);
    }
    render() { for (const it of Object.values(this.editors)) it.render(); }
    show_part(part) {
        document.body.dataset.part = part;
        for (const it of document.querySelectorAll('#source-tabs [data-part]')) {
            it.setAttribute('aria-pressed', it.dataset.part === part);
        }
        this.editors[part].render();
    }
    show_names(name) {
        for (const it of document.querySelectorAll('#source-tabs [data-part]')) {
            it.textContent = `${name}.${it.dataset.part === 'processor' ? 's' : 'v'}`;
        }
    }

    // ---- addresses and names

    words_of(address) {
        const name = this.build?.names?.name(address), entry = this.build?.listing?.at(address);
        return [name, entry && `line ${entry.line}`].filter(Boolean).join(' · ');
    }
    name_of(address) { return this.build?.names?.name(address) || address_words(address); }
    address(words) {
        if (this.build?.names) return this.build.names.address(words);
        return /^[0-9a-f]{4}$/i.test(words.trim()) ? parseInt(words, 16) : undefined;
    }

    // ---- lines that are shown and marked

    reveal(address) {
        const entry = this.build?.listing?.at(address);
        if (entry) this.reveal_entry(entry);
        return entry;
    }
    reveal_entry({part, line}) {
        this.show_part(part);
        this.editors[part].reveal(line, {select: true});
    }
    // The same with a mark, which stays until the game goes on or another line gets it.
    mark(address) {
        const entry = this.reveal(address);
        if (!entry) return;
        for (const it of Object.values(this.editors)) it.shown.clear();
        this.editors[entry.part].shown.add(entry.line);
        this.render();
    }
    // The line of the program counter, or none where the game runs. Where it isn't revealed, the
    // source stays as the person has it.
    show_pc(pc, {reveals = false} = {}) {
        const entry = pc === null ? null : this.build?.listing?.at(pc);
        const it = this.editors.processor, line = entry?.part === 'processor' ? entry.line : 0;
        if (pc === null) this.unmark();
        if (line !== it.pc) {
            it.pc = line;
            it.render();
        }
        if (line && reveals) { this.show_part('processor'); it.reveal(line); }
    }
    unmark() {
        for (const it of Object.values(this.editors)) {
            if (!it.shown.size) continue;
            it.shown.clear();
            it.render();
        }
    }

    // ---- a build, good or refused

    show_build(build) {
        for (const part of PARTS) {
            const it = this.editors[part];
            it.problems.clear();
            it.address = line => {
                const entry = build?.listing?.on_line(part, line);
                return entry ? address_words(entry.address) : '';
            };
            it.share = () => 0;
            it.render();
        }
        $('problem').hidden = true;
        const bytes = build?.listing?.entries.reduce((sum, it) => sum + it.length, 0);
        this.say(build ? `assembled · ${number_words(bytes)} bytes` :
            'no sources of this image', 'is-good');
    }
    say(words, kind = $('build').className) {
        $('build').textContent = words;
        $('build').className = kind;
    }
    show_problems(all) {
        for (const part of PARTS) {
            const it = this.editors[part], mine = all.filter(problem => problem.part === part);
            it.problems = new Map(mine.map(problem => [problem.line, problem.cause]));
            it.render();
        }
        this.say(all.length === 1 ? 'one line is refused' : `${all.length} lines are refused`,
            'is-bad');
        $('problem').hidden = false;
        const sorted = [...all].sort((a, b) => PARTS.indexOf(a.part) - PARTS.indexOf(b.part) ||
            a.line - b.line);
        $('problem').replaceChildren(...sorted.map(it => this.problem_row(it)));
    }
    problem_row({part, line, cause}) {
        const text = this.editors[part].lines[line - 1] ?? '', cure = cure_of(part, cause, text);
        const row = element('button', {type: 'button'},
            element('b', {}, `${part === 'generator' ? '.v ' : ''}line ${line}`),
            element('em', {}, cause));
        if (cure) {
            const written = element('span', {}, ` for ${cure.written}`);
            row.append(element('span', {}, 'write ', element('code', {}, cure.write), written));
        }
        row.onclick = () => this.reveal_entry({part, line});
        return row;
    }
    show_shares(profile) {
        const lines = {processor: new Map(), generator: new Map()};
        for (const it of profile.routines) {
            const entry = this.build?.listing?.at(it.address);
            if (entry) lines[entry.part].set(entry.line, it.share);
        }
        for (const part of PARTS) {
            this.editors[part].share = line => lines[part].get(line) ?? 0;
            this.editors[part].render();
        }
    }
}
