// A source in a text area, with numbers, addresses and marks beside its lines, and colours behind
// them. Only the lines in sight are made, so that a key costs the same in a long source.
'use strict';

const LINE_HIGH = 18, TAB_STOP = 8;             // pixels, columns

// The first line that an edit moved, or took away, and by how much the lines behind it moved.
function edit_of(before, after) {
    let at = 0;
    while (at < before.length && at < after.length && before[at] === after[at]) at++;
    const by = after.length - before.length;
    const is_whole = by > 0 ? before[at] === after[at + by] : before[at - by] === after[at];
    return {line: is_whole ? at + 1 : at + 2, by};
}
// Line numbers after an edit; those of lines that were taken away are gone.
function moved_lines(lines, {line, by}) {
    return [...lines].filter(it => by >= 0 || it < line || it >= line - by)
        .map(it => it >= line ? it + by : it);
}

// Marks of lines, a Map by their numbers, after an edit: each goes with its line, and those of
// lines that were changed or taken away are gone.
function moved_marks(marks, before, after) {
    const most = Math.min(before.length, after.length), by = after.length - before.length;
    let head = 0, tail = 0;
    while (head < most && before[head] === after[head]) head++;
    while (tail < most - head && before.at(-1 - tail) === after.at(-1 - tail)) tail++;
    const behind = before.length - tail;
    return new Map([...marks].filter(([line]) => line <= head || line > behind)
        .map(([line, it]) => [line <= head ? line : line + by, it]));
}

// Makes rows the children of a box, and touches only those that aren't in their places.
function replace_rows(box, rows) {
    rows.forEach((row, i) => {
        if (box.children[i] !== row) box.insertBefore(row, box.children[i] ?? null);
    });
    while (box.children.length > rows.length) box.lastChild.remove();
}

class Editor {
    // `changed(text)` at each change; `clicked(line)` for a number; `moved(line)` for the cursor.
    constructor(part, {changed, clicked, moved}) {
        Object.assign(this, {part, changed, clicked, moved, lines: [''], breaks: new Set(),
            problems: new Map(), address: () => '', share: () => 0, pc: 0, shown: new Set()});
        this.gutter = element('div', {className: 'gutter'}, element('div'));
        this.layer = element('pre', {className: 'layer', ariaHidden: 'true'});
        this.area = element('textarea', {spellcheck: false, wrap: 'off',
            ariaLabel: part === 'processor' ? 'The processor’s source' : 'The generator’s source'});
        this.area.setAttribute('autocapitalize', 'off');
        const code = element('div', {className: 'code'}, this.layer, this.area);
        this.box = element('div', {className: 'editor', dataset: {part}}, this.gutter, code);
        this.area.addEventListener('input', () => this.edited());
        this.area.addEventListener('scroll', () => this.render());
        this.area.addEventListener('keydown', it => this.key(it));
        for (const it of ['click', 'keyup']) {
            this.area.addEventListener(it, () => this.moved(this.cursor()));
        }
        this.gutter.addEventListener('click', it => {
            const row = it.target.closest('[data-line]');
            if (row) this.clicked(Number(row.dataset.line));
        });
        new ResizeObserver(() => this.render()).observe(this.area);
    }
    get text() { return this.area.value; }
    // Another text, with neither breaks nor problems.
    set(text) {
        this.area.value = text;
        this.lines = text.split('\n');
        this.breaks.clear();
        this.problems.clear();
        this.pc = 0;
        this.shown.clear();
        this.area.scrollTo(0, 0);
        this.area.setSelectionRange(0, 0);
        this.render();
    }
    edited() {
        const lines = this.area.value.split('\n'), edit = edit_of(this.lines, lines);
        this.problems = moved_marks(this.problems, this.lines, lines);
        this.lines = lines;
        if (edit.by) this.breaks = new Set(moved_lines(this.breaks, edit));
        this.pc = 0;
        this.shown.clear();
        this.render();
        this.changed();
    }
    // Tab goes to the next stop; after Escape the keys are the game's, and Tab leaves.
    key(event) {
        if (event.key === 'Escape') { $('canvas').focus(); return; }
        if (event.key !== 'Tab' || event.shiftKey || event.ctrlKey || event.altKey) return;
        event.preventDefault();
        const before = this.area.value.slice(0, this.area.selectionStart);
        const column = before.length - before.lastIndexOf('\n') - 1;
        const blanks = ' '.repeat(TAB_STOP - column % TAB_STOP);
        if (!document.execCommand('insertText', false, blanks)) {
            this.area.setRangeText(blanks, this.area.selectionStart, this.area.selectionEnd, 'end');
            this.edited();
        }
    }
    cursor() {
        return this.area.value.slice(0, this.area.selectionStart).split('\n').length;
    }
    // Shows a line, in the middle where it isn't in sight.
    reveal(line, {select = false} = {}) {
        const top = (line - 1) * LINE_HIGH, high = this.area.clientHeight;
        if (top < this.area.scrollTop + LINE_HIGH || top > this.area.scrollTop + high - 54) {
            this.area.scrollTop = top - high / 2;
        }
        if (select) {
            const at = this.lines.slice(0, line - 1).reduce((sum, it) => sum + it.length + 1, 0);
            this.area.setSelectionRange(at, at);
        }
        this.render();
    }

    // ---- the lines in sight

    render() {
        const {scrollTop, scrollLeft, clientHeight} = this.area;
        const first = Math.max(0, Math.floor(scrollTop / LINE_HIGH) - 2);
        const last = Math.min(this.lines.length,
            Math.ceil((scrollTop + clientHeight) / LINE_HIGH) + 2);
        const rows = [], numbers = [];
        this.pool = this.made ?? new Map();
        this.made = new Map();
        for (let i = first; i < last; i++) {
            rows.push(this.kept(this.marks(i + 1) + this.lines[i], () => this.row(i + 1)));
            const number = `${i + 1} ${this.address(i + 1)} ${this.share(i + 1)}`;
            numbers.push(this.kept(`${this.marks(i + 1)}\0${number}`, () => this.number(i + 1)));
        }
        this.pool = null;
        const top = first * LINE_HIGH - scrollTop;
        replace_rows(this.layer, rows);
        replace_rows(this.gutter.firstChild, numbers);
        this.layer.style.transform = `translate(${-scrollLeft}px, ${top}px)`;
        this.gutter.firstChild.style.transform = `translateY(${top}px)`;
    }
    // An element of the rendering before that says the same, or a new one.
    kept(words, make) {
        const made = this.pool.get(words)?.pop() ?? make(), list = this.made.get(words);
        if (list) list.push(made); else this.made.set(words, [made]);
        return made;
    }
    marks(line) {
        const is_now = line === this.pc, is_shown = this.shown.has(line);
        const has_break = this.breaks.has(line), problem = this.problems.get(line) ?? '';
        return `${+is_now}${+is_shown}${+has_break}${problem}\0`;
    }
    row(line) {
        const pieces = pieces_of(this.lines[line - 1], this.part).map(it => it.kind ?
            element('span', {className: `is-${it.kind}`}, it.text) : it.text);
        const row = element('div', {}, ...pieces, '\n');
        row.classList.toggle('is-pc', line === this.pc);
        row.classList.toggle('is-shown', this.shown.has(line));
        row.classList.toggle('has-problem', this.problems.has(line));
        return row;
    }
    number(line) {
        const address = element('i', {}, this.address(line)), share = this.share(line);
        if (share > 0.0005) {
            const wide = Math.max(4, Math.round(100 * Math.sqrt(share)));
            address.style.backgroundSize = `${wide}% 100%`;
            address.className = 'has-share';
        }
        const row = element('div', {dataset: {line}}, element('b', {}, String(line)), address);
        row.classList.toggle('has-break', this.breaks.has(line));
        row.classList.toggle('is-pc', line === this.pc);
        row.classList.toggle('has-problem', this.problems.has(line));
        row.title = this.problems.get(line) ?? '';
        return row;
    }
}

if (typeof module === 'object') module.exports = {edit_of, moved_lines, moved_marks};
