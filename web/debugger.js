// The debugger over `gravitar debug`: each step is a script over a board of the session, and the
// clocks where it stops are those of the program. Nothing of the page.
'use strict';

if (typeof require === 'function') {
    globalThis.Gravitar ??= require('./core.js');
    Object.assign(globalThis, require('./writes.js'));
}

const LONGEST_TURN = 24;                        // clocks: more than an instruction takes
const JSR = 0x20;

function address_words(address) { return Gravitar.hex(address, 4); }
// `cpu pc 9000 a 00 ..` and its clock, as numbers.
function registers_of(text) {
    const [, clock, rest] = /clock (\d+)\ncpu (.*)/.exec(text);
    const words = rest.split(' '), found = {clock: Number(clock)};
    for (let i = 0; i < words.length; i += 2) found[words[i]] = parseInt(words[i + 1], 16);
    return found;
}
// The stops that a script printed: {why, clock}; why is `break 9005`, `step`, `end` and so on.
function stops_of(text) {
    return [...text.matchAll(/^stop (.*) at (\d+)$/gm)]
        .map(it => ({why: it[1], clock: Number(it[2])}));
}
// What `regs` and `mem 0000 256` printed together, each time: registers with `zero_page`.
function visits_of(text) {
    return text.split(/^(?=clock )/m).slice(text.startsWith('clock ') ? 0 : 1).map(it => {
        const bytes = [...it.matchAll(/^[0-9A-F]{4}:(.*)$/gm)]
            .flatMap(row => row[1].trim().split(' '));
        return {...registers_of(it), zero_page: bytes.map(byte => parseInt(byte, 16))};
    });
}
// The registers and the byte at pc, from a board's own bytes.
function place_of_board(board, image) {
    const pc = board[12] + 256 * board[13];
    const opcode = pc >= 0x9000 ? image[14336 + pc - 0x9000] : pc < 0x800 ? board[260 + pc] : -1;
    return {pc, s: board[17], opcode, is_inside: board[30] !== 0, is_jammed: board[19] === 1};
}

class Debugger {
    constructor(library, session) { Object.assign(this, {library, session}); }
    get start() { return this.session.kept[0].clock; }
    board(clock) {
        return clock === this.session.clock ? this.session.board : this.session.look(clock).board;
    }
    // What a script prints over the board of a clock, with the inputs of the play up to another.
    script(clock, lines, to = clock + 2 ** 24) {
        const {session} = this, board = this.board(clock);
        const files = [{name: 'image', bytes: session.image},
            {name: 'tape', bytes: session.between(clock, Math.min(to, Gravitar.CLOCK_LIMIT))},
            {name: 'script', bytes: Gravitar.text(`${lines.join('\n')}\n`)},
            {name: 'board', bytes: board}];
        const words = ['debug', 'image', 'tape', 'script', '--state', 'board'];
        if (session.timers) words.push('--timers');
        const it = this.library.command(words, files);
        if (it.status !== 0) throw new Error(Gravitar.string_of(it.note).trim());
        return Gravitar.string_of(it.out);
    }
    place(clock) { return place_of_board(this.board(clock), this.session.image); }

    // ---- forward: each gives {why, clock}

    step(clock, count = 1) { return stops_of(this.script(clock, [`step ${count}`])).at(-1); }
    until(clock, to) { return stops_of(this.script(clock, [`until ${to}`], to + 100)).at(-1); }
    /* Up to a stop or to a clock, in pieces; yields the clock that it has come to. A piece ends
     * behind its last turn without a look at the stops, so the next one begins in front of it. */
    *go(clock, {breaks = [], watches = [], halts = false, to}) {
        const lines = [...breaks.map(it => `break ${address_words(it)}`),
            ...watches.map(it => `watch ${address_words(it)}`), ...(halts ? ['stopvg'] : []), 'go'];
        const piece = watches.length || halts ? Gravitar.HZ / 4 : 4 * Gravitar.HZ;
        for (let at = clock; ;) {
            const end = Math.min(to, at + piece);
            const stop = stops_of(this.script(at, lines, end)).at(-1);
            if (stop.why !== 'end' || stop.clock >= to) return stop;
            yield stop.clock;
            at = Math.max(clock, this.back_step(stop.clock) ?? clock);
        }
    }
    // The whole of `go` at once.
    run(clock, options) {
        for (const going = this.go(clock, options); ;) {
            const it = going.next();
            if (it.done) return it.value;
        }
    }
    // Over a subroutine: to behind the JSR, at the same depth of the stack.
    over(clock, to) {
        if (this.place(clock).is_inside) return this.step(clock);
        const {pc, s, opcode} = this.place(clock);
        if (opcode !== JSR) return this.step(clock);
        for (let at = clock; ;) {
            const stop = this.run(at, {breaks: [pc + 3 & 0xFFFF], to});
            if (!stop.why.startsWith('break')) return stop;
            if (this.place_after(at, stop.clock).s === s) return stop;
            at = stop.clock;
        }
    }
    // The registers at a clock that may be later than the play's end.
    place_after(clock, later) {
        return registers_of(this.script(clock, [`until ${later}`, 'regs'], later + 100));
    }
    // Out of a routine: to where RTS or RTI has taken its bytes off the stack.
    out(clock, to) {
        const {s} = this.place(clock), pair = ['step 1', 'regs'], turns = 4000;
        const lines = Array.from({length: 2 * turns}, (_, i) => pair[i & 1]);
        for (let at = clock; at < to;) {
            const text = this.script_after(clock, at, lines);
            const all = text.match(/^clock \d+\ncpu .*$/gm).map(registers_of);
            const found = all.find(it => it.s > s + 1);
            if (found) return {why: 'out', clock: found.clock};
            const jam = stops_of(text).find(it => it.why.startsWith('jam'));
            if (jam) return jam;
            at = all.at(-1).clock;
        }
        return {why: 'end', clock: this.until(clock, to).clock};
    }
    script_after(clock, later, lines) {
        return this.script(clock, later > clock ? [`until ${later}`, ...lines] : lines);
    }

    // ---- back: a clock, or null where the play begins

    // The boundaries between turns in a stretch before a clock.
    boundaries(clock, span = LONGEST_TURN) {
        const from = Math.max(this.start, clock - span), many = Math.ceil(span / 2) + 1;
        const lines = new Array(many).fill('step 1');
        const all = stops_of(this.script(from, lines, clock)).map(it => it.clock);
        if (!this.place(from).is_inside) all.unshift(from);
        return all.filter(it => it < clock);
    }
    back_step(clock) {
        for (let span = LONGEST_TURN; ; span *= 4) {
            const found = this.boundaries(clock, span).at(-1);
            if (found !== undefined) return found;
            if (clock - span <= this.start) return null;
        }
    }
    // Where the generator halted last before a clock.
    back_picture(clock) {
        for (let end = clock; end > this.start;) {
            const from = Math.max(this.start, end - Gravitar.FRAME * 4);
            const found = this.stops_between(from, end, ['stopvg']).filter(it => it.clock < clock);
            if (found.length) return found.at(-1).clock;
            end = from;
        }
        return null;
    }
    // All stops in a stretch. It begins and ends between turns, whatever the clocks are.
    stops_between(from, to, lines) {
        const begin = Math.max(this.start, from - LONGEST_TURN), all = [];
        for (let at = begin; at < to;) {
            const script = [...lines, ...new Array(500).fill('go')];
            const found = stops_of(this.script(at, script, to + 1));
            const stops = found.filter(it => it.why !== 'end' && !it.why.startsWith('jam'));
            all.push(...stops.filter(it => it.clock <= to));
            if (stops.length < 500) break;
            at = stops.at(-1).clock;
        }
        return all;
    }
    // The turn before a clock that changed a byte of RAM or vector RAM last, as `turn_at` has it,
    // or null. Yields the clock that the search has come to.
    *last_change(clock, address) {
        const watch = [`watch ${address_words(address)}`];
        for (let end = clock; end > this.start;) {
            const from = Math.max(this.start, end - Gravitar.HZ / 4);
            const found = this.stops_between(from, end, watch).at(-1);
            if (found) return this.turn_at(this.back_step(found.clock));
            end = from;
            yield end;
        }
        return null;
    }
    /* The turn before a clock that wrote a byte last, also where it wrote the byte that was there.
     * Instructions of the ROM that may write it are breaks, and their registers say which byte they
     * write. Code in RAM has no such breaks: of its writes those are found that change the byte. */
    *last_write(clock, address) {
        const places = writers_of(this.session.image, address);
        const watch = [`watch ${address_words(address)}`];
        let piece = Gravitar.HZ / 32;
        for (let end = clock; end > this.start; piece = Math.min(2 * piece, Gravitar.HZ / 4)) {
            const from = Math.max(this.start, end - piece);
            const begins = this.writes_between(from, end, address, places)
                .filter(it => it + LONGEST_TURN <= clock || this.step(it).clock <= clock);
            const after = Math.max(from, begins.at(-1) ?? from);
            const changes = this.stops_between(after, end, watch)
                .filter(it => it.clock > after).map(it => this.back_step(it.clock));
            const all = [...begins, ...changes];
            if (all.length) return this.turn_at(Math.max(...all));
            end = from;
            yield end;
        }
        return null;
    }
    // A turn: {begin, clock, pc, is_interrupt}, from its first clock to the one behind its last.
    turn_at(begin) {
        const {clock} = this.step(begin), {pc, s, opcode} = this.place(begin);
        const after = this.place_after(begin, clock), handler = irq_handler(this.session.image);
        const has_pushed = after.pc === handler && (s - after.s & 255) === 3;
        return {begin, clock, pc, is_interrupt: has_pushed && opcode !== BRK};
    }
    // The clocks in a stretch at which turns begin that write a byte, of instructions at `places`.
    writes_between(from, to, address, places) {
        const begins = new Set();
        for (let i = 0; i < places.length; i += 16) {
            const group = places.slice(i, i + 16);
            for (const it of this.visits(from, to, group)) {
                for (const begin of this.begins_of_write(it, address)) begins.add(begin);
            }
        }
        return [...begins].filter(it => it >= from && it < to).sort((a, b) => a - b);
    }
    // The turn of an instruction in front of which the registers were read, and the one before it
    // where that has led to the handler of interrupts.
    begins_of_write(registers, address) {
        const {image} = this.session, {pc, s, clock, zero_page} = registers, begins = [];
        if (written_by(image, registers, zero_page).includes(address)) begins.push(clock);
        const pushed = [1, 2, 3].map(it => 0x100 + (s + it & 255));
        if (pc === irq_handler(image) && pushed.includes(address)) {
            const before = this.back_step(clock);
            if (before !== null && (this.place(before).s - s & 255) === 3) begins.push(before);
        }
        return begins;
    }
    // The registers, and the zero page where an instruction at `places` has a pointer in it, in
    // front of each such instruction in a stretch.
    visits(from, to, places) {
        const has_pointers = places.some(it => is_indirect(this.session.image, it));
        const shown = has_pointers ? ['regs', 'mem 0000 256'] : ['regs'], all = [];
        const breaks = places.map(it => `break ${address_words(it)}`);
        for (let at = from, many = 50; ; many = 500) {
            const more = Array.from({length: many}, () => ['go', ...shown]).flat();
            const text = this.script(at, [...breaks, ...shown, ...more], to + 1);
            const found = visits_of(text), is_first = at === from;
            if (is_first && !this.place(from).is_inside && places.includes(found[0].pc)) {
                all.push(found[0]);
            }
            const stops = stops_of(text).filter(it => it.why.startsWith('break'));
            all.push(...found.slice(1, 1 + stops.length));
            if (stops.length < many) return all;
            at = stops.at(-1).clock;
        }
    }

    // The first clock of a stretch at which the stack is at its highest: outside of what is called
    // in it, as far as 5,000 turns a round show. A profile from there charges what waits to itself.
    outermost(from, to, rounds = 4) {
        const pair = ['step 1', 'regs'], lines = Array.from({length: 10000}, (_, i) => pair[i & 1]);
        let best = null;
        for (let at = from, i = 0; i < rounds && at < to; i++) {
            const text = this.script_after(from, at, lines);
            const all = (text.match(/^clock \d+\ncpu .*$/gm) ?? []).map(registers_of);
            for (const it of all) if (it.clock < to && !(best?.s >= it.s)) best = it;
            if (!(all.at(-1)?.clock > at)) break;
            at = all.at(-1).clock;
        }
        return best?.clock ?? from;
    }

    // ---- what is shown

    shows(clock, ...lines) { return this.script(clock, lines); }
    // Boards and stops of the picture of now: where it ends if it goes on as it is.
    stop_before(from, to, {breaks = [], watches = []}) {
        if (!breaks.length && !watches.length) return null;
        const lines = [...breaks.map(it => `break ${address_words(it)}`),
            ...watches.map(it => `watch ${address_words(it)}`), 'go'];
        const stop = stops_of(this.script(from, lines, to + 1)).at(-1);
        return /^(break|watch)/.test(stop.why) && stop.clock <= to ? stop : null;
    }
}

if (typeof module === 'object') {
    module.exports = {Debugger, registers_of, stops_of, place_of_board, address_words};
}
