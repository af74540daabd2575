// A session that runs in step with a clock of the wall: inputs at their own clocks, frames, ways
// back. The page (play.js) hands it times, and draws what it has; nothing here touches the page.
'use strict';

if (typeof require === 'function') {
    globalThis.Gravitar ??= require('./core.js');
    Object.assign(globalThis, require('./picture.js'), require('./controls.js'));
}

class Player {
    static STALL = 100;                         // milliseconds that one frame runs at most
    static BACK = 2;                            // how many times faster a rewind is

    // `hears(records, clock, levels)` gets what ran; `breaks()` a pause, a jump, another session.
    constructor(library, {hears, breaks}) {
        Object.assign(this, {library, hears, breaks});
        this.session = null;
        this.state = 'paused';                  // or running, back, looking
        this.speed = 1;
        this.controls = [];
        this.values = new Map();                // how far down each source is
        this.queue = [];                        // {source, value, time}: not yet run
        this.strokes = [];
        this.seen = null;                       // all records, where a test wants them
    }
    // A run over an image: {board, cells, tape, timers} as Session has them; `ports` are bytes at
    // its first clock, as switches are.
    begin(image, {ports = {}, ...options} = {}) {
        const session = new Gravitar.Session(this.library, image, options);
        this.session = session;
        this.image = session.image;
        this.at = this.exact = this.end = session.clock;
        this.strokes = [];
        this.settle_queue();
        this.seen &&= [];
        if (!options.tape) {
            for (const [port, byte] of Object.entries(ports)) {
                if (session.port(port) !== byte) session.set(port, byte);
            }
        }
        this.state = 'paused';
        this.breaks();
        return session;
    }
    is_watching() { return this.session.is_playing_tape(); }

    // ---- what it does

    go(now) {
        if (this.state === 'looking') this.return_to(this.at);
        this.state = 'running';
        this.last = now;
        this.settle_queue();
        this.exact = this.session.clock;
        this.breaks();
        if (!this.is_watching()) this.agree();
    }
    pause() {
        if (this.state === 'looking') return;
        this.settle_queue();
        this.state = 'paused';
        this.breaks();
    }
    // One sixtieth of a second.
    step() {
        if (this.state === 'looking') this.return_to(this.at);
        this.pause();
        if (!this.is_watching()) this.agree();
        this.run(this.session.clock + Gravitar.FRAME);
    }
    back(now) {
        if (this.state === 'looking') this.return_to(this.at);
        this.settle_queue();
        this.state = 'back';
        this.last = now;
        this.breaks();
    }
    // A look at a clock of the run, which stays as it is; at its end the run is as it was.
    look(clock) {
        if (this.state !== 'looking') { this.pause(); this.end = this.session.clock; }
        const from = this.session.kept[0].clock;
        clock = Math.max(from, Math.min(Math.floor(clock), this.end));
        const it = this.session.look(clock, Math.max(from, clock - SEEN));
        this.state = clock === this.end ? 'paused' : 'looking';
        this.at = clock;
        this.board = it.board;
        this.strokes = strokes_in(it.records);
    }
    shown_board() { return this.state === 'looking' ? this.board : this.session.board; }
    // Goes back to a clock for good: a tape that is watched stays, what was played is forgotten.
    return_to(clock) {
        const session = this.session;
        if (this.is_watching()) session.go_back(clock); else session.rewind(clock);
        this.state = 'paused';
        this.at = this.exact = this.end = session.clock;
        const from = Math.max(session.kept[0].clock, session.clock - SEEN);
        this.strokes = strokes_in(session.look(session.clock, from).records);
        if (this.seen) this.seen = [records_before(Gravitar.joined(this.seen), session.clock)];
        this.breaks();
    }

    // Another session in the place of this one, at its own clock: its inputs are those so far.
    exchange(session) {
        this.settle_queue();
        Object.assign(this, {session, image: session.image, state: 'paused', board: session.board});
        this.at = this.exact = this.end = session.clock;
        const from = Math.max(session.kept[0].clock, session.clock - SEEN);
        this.strokes = strokes_in(session.look(session.clock, from).records);
        this.seen &&= [];
        this.breaks();
    }
    // Past the end of the run, with the inputs as they are.
    extend(clock) {
        if (this.state === 'looking') this.look(Infinity);
        if (this.state !== 'paused') this.pause();
        while (this.session.clock < clock && !this.session.jammed) this.run(clock);
    }

    // ---- inputs

    // A source moved, at a time in milliseconds. A press that changes nothing isn't kept.
    move(source, value, time) {
        if (!this.controls.some(it => it.source === source)) return false;
        if (this.state === 'running') this.queue.push({source, value, time});
        else this.values.set(source, value);
        return true;
    }
    release_all(time) {
        for (const [source, value] of this.values) {
            if (value && !is_analog(source)) this.move(source, 0, time);
        }
    }
    // What waits is no input any more, but the keys are where they are.
    settle_queue() {
        for (const {source, value} of this.queue.splice(0)) this.values.set(source, value);
    }
    // After a pause or a way back the ports are those of the board; the keys may be others.
    agree() {
        for (const port of new Set(this.controls.map(it => it.port))) {
            const byte = this.session.port(port);
            const wanted = byte_for(port, byte, this.controls, this.values);
            if (wanted !== byte) this.session.set(port, wanted);
        }
    }
    // A tape goes on until a button is pressed; from there on all ports are as the keys are.
    apply({source, value}, clock) {
        const was = this.values.get(source) ?? 0;
        this.values.set(source, value);
        const pressed = value > 0.5 && was <= 0.5 && !is_analog(source) ? source : null;
        let moved = this.controls.filter(it => it.source === source);
        if (this.is_watching()) {
            if (!pressed) return;
            this.session.drop(clock + 1);
            moved = this.controls;
        }
        for (const port of new Set(moved.map(it => it.port))) {
            const byte = this.session.port(port);
            const wanted = byte_for(port, byte, this.controls, this.values, pressed);
            if (wanted !== byte) this.session.set(port, wanted, clock);
        }
    }
    // The clock of a moment: its share of the frame's time, of the frame's clocks. A frame after a
    // stall has fewer clocks than time, so its inputs move together, in order, and none is lost.
    clock_of_time(time, {from, to, begin, end}) {
        const share = (time - begin) / (end - begin || 1);
        return Math.max(from, Math.min(to - 1, Math.floor(from + share * (to - from))));
    }

    // ---- frames

    frame(now) {
        if (!this.session) return;
        const gap = now - this.last;
        if (this.state === 'back') {
            this.last = now;
            const clocks = Player.BACK * Math.min(gap, Player.STALL) * Gravitar.HZ / 1000;
            this.return_to(this.session.clock - clocks);
            this.state = 'back';
            return;
        }
        if (this.state !== 'running') return;
        const span = Math.min(gap, Player.STALL) * this.speed * Gravitar.HZ / 1000;
        const from = this.session.clock, to = Math.floor(Math.max(this.exact, from) + span);
        if (to <= from) return;
        this.exact = Math.max(this.exact, from) + span;
        const stretch = {from, to, begin: this.last, end: now};
        this.last = now;
        let clock = from;                       // never back, for that would drop an input
        for (const it of this.queue.splice(0)) {
            clock = Math.max(clock, this.clock_of_time(it.time, stretch));
            this.apply(it, clock);
        }
        this.run_to_stop(from, to);
    }
    // A debugger may stop a frame: `stops(from, to)` gives {clock}, or null.
    run_to_stop(from, to) {
        const stop = this.stops?.(from, to) ?? null;
        this.run(stop ? stop.clock : to);
        if (!stop) return;
        if (!this.is_watching()) this.session.drop(stop.clock);
        this.pause();
        this.stopped(stop);
    }
    run(to) {
        const session = this.session, watching = this.is_watching();
        if (watching) to = Math.min(to, session.tape_end);
        const records = session.run(to), levels = Gravitar.levels_of(session.board);
        this.at = this.end = session.clock;
        this.seen?.push(records);
        const oldest = session.clock - SEEN;
        this.strokes = this.strokes.filter(it => it.clock > oldest);
        for (const it of strokes_in(records)) if (it.clock > oldest) this.strokes.push(it);
        this.hears(records, session.clock, levels);
        if (session.jammed || watching && !this.is_watching()) {
            this.ended = session.jammed ? 'jammed' : 'tape';
            this.pause();
        }
    }
    // Why it stopped by itself, once.
    take_end() { const ended = this.ended; this.ended = null; return ended; }
}

// Of records, those before a clock.
function records_before(records, clock) {
    const words = Gravitar.words_of(records);
    let at = 0;
    while (at < words.length && Gravitar.clock_in(words, at) < clock) at += 10;
    return records.slice(0, 4 * at);
}

if (typeof module === 'object') module.exports = {Player};
