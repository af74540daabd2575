// A session that is played by random keys on all ports, in random slices, with ways back. The
// inputs are kept here too, as a person pressed them; so are the records that were seen.
export class Play {
    constructor(G, checks, random, session) {
        Object.assign(this, {G, checks, random, session});
        Object.assign(this, {begin: session.clock, inputs: [], seen: []});
    }
    // A clock that was done, or now.
    some_clock() { return this.begin + this.random.below(this.session.clock - this.begin + 1); }
    input(clock) {
        const it = {clock, port: this.random.of(this.G.PORTS), value: this.random.below(256)};
        this.inputs = this.inputs.filter(other => other.clock <= clock).concat([it]);
        this.session.set(it.port, it.value, clock);
    }
    slice() {
        const {random, session} = this, from = session.clock;
        const to = from + (random.below(3) ? random.up_to(600000) : this.G.FRAME);
        const clocks = Array.from({length: to > from ? random.below(6) : 0},
            () => from + random.below(to - from));
        clocks.sort((a, b) => a - b).forEach(it => this.input(it));
        if (random.below(4) === 0) this.compare_ports();
        // A part of a clock is no clock.
        this.seen.push(session.run(to + random.below(2) / 2));
        this.checks.holds('run ends at its clock', session.clock === to || session.jammed,
            () => `${session.clock} ${to}`);
    }
    back() {
        const {random, session} = this, past = this.inputs.filter(it => it.clock < session.clock);
        // To some clock, or to just before an input or just after it.
        const clock = past.length && random.below(2) ? random.of(past).clock + random.below(2) :
            session.clock - random.up_to(session.clock - this.begin);
        if (random.below(3) === 0) {
            session.go_back(clock);
        } else {
            session.rewind(clock);
            this.inputs = this.inputs.filter(it => it.clock < clock);
        }
        this.forget(clock);
        this.checks.holds('a way back ends at its clock', session.clock === clock,
            () => `${session.clock} ${clock}`);
    }
    // Records from a clock on were not seen.
    forget(clock) {
        const seen = this.G.joined(this.seen), words = this.G.words_of(seen);
        let at = 0;
        while (at < words.length && this.G.clock_in(words, at) < clock) at += 10;
        this.seen = [seen.slice(0, 4 * at)];
    }
    compare_ports() {
        const now = this.G.ports_of(this.session.start), next = {...now};
        for (const {clock, port, value} of this.inputs) {
            next[port] = port === 'IN0' ? value & 63 : value;
            if (clock < this.session.clock) now[port] = next[port];
        }
        const called = Object.fromEntries(this.G.PORTS.map(it => [it, this.session.port(it)]));
        const board = this.G.ports_of(this.session.board);
        this.checks.same('ports of the board', JSON.stringify(board), JSON.stringify(now));
        this.checks.same('ports of the session', JSON.stringify(called), JSON.stringify(next));
    }
    for_clocks(clocks) {
        const end = this.session.clock + clocks;
        this.input(this.session.clock);
        while (this.session.clock < end && !this.session.jammed) {
            if (this.random.below(9) === 0) this.back(); else this.slice();
            this.compare_ports();
        }
    }
    tape() {
        const end = this.session.clock, done = this.inputs.filter(it => it.clock < end);
        const line = it => `${it.clock} ${it.port} ${this.G.hex(it.value, 2)}\n`;
        return done.map(line).join('') + `${end} END\n`;
    }
    lines() { return this.G.lines_of(this.G.joined(this.seen)); }
}
