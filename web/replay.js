// Another image for a play that is under way: the same inputs at the same clocks, from power-on or
// from a kept board, up to the clock where the play is. Nothing of the page.
'use strict';

if (typeof require === 'function') globalThis.Gravitar ??= require('./core.js');

class Replay {
    // `board` is the kept one, or null for the play's own beginning.
    constructor(library, session, image, board = null) {
        const start = board ?? session.start, from = Gravitar.clock_of(start);
        this.to = Math.max(session.clock, from);
        this.session = new Gravitar.Session(library, image,
            {board: start, timers: session.timers});
        this.session.inputs = session.inputs.filter(it => it.clock >= from).map(it => ({...it}));
        this.session.tape_end = session.tape_end;
        this.from = from;
    }
    // Runs for some milliseconds; whether it is there, or the board jams.
    run(milliseconds, now = () => performance.now()) {
        const until = now() + milliseconds, {session} = this;
        while (session.clock < this.to && !session.jammed) {
            session.run(Math.min(this.to, session.clock + Gravitar.FRAME * 4));
            if (now() >= until) break;
        }
        return session.clock >= this.to || session.jammed;
    }
    get share() { return (this.session.clock - this.from) / (this.to - this.from || 1); }
}

if (typeof module === 'object') module.exports = {Replay};
