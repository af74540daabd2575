// Where the clocks of a stretch went, over `gravitar profile`, and its pictures, over
// `gravitar frames`. Nothing of the page.
'use strict';

if (typeof require === 'function') globalThis.Gravitar ??= require('./core.js');

// A command over a stretch of a session: {words, files}.
function command_over(session, verb, from, to) {
    const board = from === session.kept[0].clock ? session.start : session.look(from).board;
    const files = [{name: 'image', bytes: session.image},
        {name: 'tape', bytes: session.between(from, to)}, {name: 'board', bytes: board}];
    const words = [verb, 'image', 'tape', '--state', 'board'];
    if (session.timers) words.push('--timers');
    return {words, files};
}
// What it prints.
function printed_over(library, session, verb, from, to) {
    const {words, files} = command_over(session, verb, from, to);
    const it = library.command(words, files);
    if (it.status !== 0) throw new Error(Gravitar.string_of(it.note).trim());
    return Gravitar.string_of(it.out);
}

// {text, routines, clocks}: the dearest routine first, each with its share of the clocks.
class Profile {
    constructor(text) {
        this.text = text;
        this.clocks = Number(/^T (\d+)$/m.exec(text)[1]);
        this.routines = [...text.matchAll(/^R ([0-9A-F]{4}) (\d+) (\d+) (\d+)$/gm)].map(it => ({
            address: parseInt(it[1], 16), entries: Number(it[2]), clocks: Number(it[3]),
            accesses: Number(it[4]), share: this.clocks ? Number(it[3]) / this.clocks : 0}));
        this.routines.sort((a, b) => b.clocks - a.clocks);
    }
    static of(library, session, from, to) {
        return new Profile(printed_over(library, session, 'profile', from, to));
    }
}

/* A profile in slices, for a browser that makes no worker: yields the share that is done, and
 * returns {profile, rate}. A slice begins near where the stack is at its highest, in a routine that
 * the slice before it names. It knows nothing of that routine's callers: where it returns to one,
 * the clocks from there to the slice's end stay with it. */
function* profile_in_slices(library, debug, from, to, wide = Gravitar.HZ) {
    const {session} = debug, sums = new Map();
    let begin = from, base = null, text = '', starts = 0;
    while (begin < to) {
        const end = begin + wide >= to ? to : debug.outermost(begin + wide, to, 2);
        const first = debug.place(begin).pc, profile = Profile.of(library, session, begin, end);
        add_routines(sums, profile, first, base);
        starts += Pictures.of(library, session, begin, end).list.length - 1;
        if (end < to) base = routine_at(library, session, begin, profile, {end, first, base});
        begin = end;
        text = profile.text;
        yield (begin - from) / (to - from);
    }
    const profile = new Profile(profile_text(sums, text.trim().split('\n').at(-1)));
    return {profile, rate: profile.clocks ? starts * Gravitar.HZ / profile.clocks : 0};
}
// Adds what a slice has. A routine that was never entered is the one in which the slice begins.
function add_routines(sums, profile, first, base) {
    for (const {address, entries, clocks, accesses} of profile.routines) {
        const is_first = address === first && entries === 0 && base !== null;
        const to = is_first ? base : address, sum = sums.get(to) ?? [0, 0, 0];
        sums.set(to, [sum[0] + entries, sum[1] + clocks, sum[2] + accesses]);
    }
}
// The routine to which the turn at a slice's end belongs: with that turn, its clocks are more.
function routine_at(library, session, begin, profile, {end, first, base}) {
    const before = new Map(profile.routines.map(it => [it.address, it.clocks]));
    const {routines} = Profile.of(library, session, begin, end + 1);
    const grown = routines.find(it => it.clocks > (before.get(it.address) ?? 0));
    const is_first = grown?.address === first && grown.entries === 0 && base !== null;
    return is_first ? base : grown?.address ?? base;
}
function profile_text(sums, last) {
    const sorted = [...sums].sort((a, b) => a[0] - b[0]);
    const total = sorted.reduce((sum, [, it]) => sum + it[1], 0);
    return [...sorted.map(([at, it]) => `R ${Gravitar.hex(at, 4)} ${it.join(' ')}`),
        `T ${total}`, last, ''].join('\n');
}

// Each picture: {number, clock, strokes, box}; the first begins where the stretch begins.
class Pictures {
    constructor(text) {
        this.text = text;
        this.list = [...text.matchAll(/^F (.*)$/gm)].map(it => {
            const [number, clock, strokes, ...box] = it[1].split(' ').map(Number);
            return {number, clock, strokes, box: box.length ? box : null};
        });
        this.end = Number(/^[EX] (\d+)/m.exec(text)[1]);
    }
    static of(library, session, from, to) {
        return new Pictures(printed_over(library, session, 'frames', from, to));
    }
    // Those that were started in the stretch, with how many clocks each one lasted.
    get started() {
        return this.list.slice(1).map((it, i) =>
            ({...it, clocks: (this.list[i + 2]?.clock ?? this.end) - it.clock}));
    }
    // Pictures a second, over the whole stretch.
    rate() {
        const clocks = this.end - this.list[0].clock;
        return clocks ? (this.list.length - 1) * Gravitar.HZ / clocks : 0;
    }
}

// The share of a stretch in which the generator draws: from each start of it to its halt.
function drawing_share(pictures, halts) {
    const starts = pictures.started.map(it => it.clock), from = pictures.list[0].clock;
    let drawn = 0, at = 0;
    for (const start of starts) {
        while (at < halts.length && halts[at] <= start) at++;
        const end = Math.min(halts[at] ?? pictures.end, starts.find(it => it > start) ?? Infinity);
        drawn += end - start;
    }
    return pictures.end > from ? drawn / (pictures.end - from) : 0;
}

if (typeof module === 'object') {
    module.exports = {Profile, Pictures, command_over, printed_over, profile_in_slices,
        drawing_share};
}
