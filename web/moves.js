// The debugger's buttons: on to a stop, back, and to the instruction that wrote a byte.
'use strict';

const FAR = 10 * Gravitar.HZ;                   // clocks that `go` looks ahead
const FAR_BACK = 60 * Gravitar.HZ;              // clocks that a search looks back

class Moves {
    constructor(workshop) {
        Object.assign(this, {workshop, page: workshop.page, work: 0});
        for (const it of document.querySelectorAll('[data-do]')) {
            it.onclick = () => this.act(it.dataset.do);
        }
        $('until').onchange = () => this.act('until');
    }
    get player() { return this.page.player; }
    get debug() { return this.workshop.debug; }
    get view() { return this.workshop.view; }
    get clock() { return this.player.at; }
    // Long work that is under way ends at its next slice.
    cancel() { this.work++; }

    // ---- what is said of a stop

    // The running game came to a break or a watch.
    stopped(stop) {
        this.workshop.refresh();
        this.show_stop(stop);
        if (document.body.dataset.pane === 'picture') this.workshop.show_pane('tools');
    }
    show_stop({why, clock}) {
        const [kind, digits] = why.split(' '), address = parseInt(digits, 16);
        const name = kind === 'break' || kind === 'watch' ? this.view.words_of(address) : '';
        const words = {out: 'out of the routine', end: 'no stop on the way',
            vg: 'the generator halted', step: '', until: ''}[kind] ??
            `${why}${name ? ` · ${name}` : ''}`;
        this.show_found(words && `${words} · clock ${number_words(clock)}`);
    }
    show_found(words) { $('found').textContent = words; }

    // ---- on and back

    // To a clock: a look at what was played, or on past its end with the inputs as they are.
    go_to(clock) {
        const {player} = this;
        this.page.chosen = null;
        if (player.state === 'running') player.pause();
        if (clock > player.end) player.extend(clock); else player.look(clock);
        this.workshop.refresh();
    }
    act(what) {
        return this.page.attempt(() => {
            const {player} = this;
            this.cancel();
            if (player.state === 'running' || player.state === 'back') player.pause();
            if (this[`do_${what}`]) return this[`do_${what}`]();
            return this.do_move(what);
        });
    }
    do_move(what) {
        const at = this.clock, {debug} = this, far = at + FAR;
        const forward = {step: () => debug.step(at), over: () => debug.over(at, far),
            out: () => debug.out(at, far), picture: () => debug.run(at, {halts: true, to: far})};
        if (forward[what]) {
            const stop = forward[what]();
            this.go_to(stop.clock);
            this.show_stop(stop);
            return;
        }
        const back = {back_step: () => debug.back_step(at),
            back_picture: () => debug.back_picture(at), back_second: () => at - Gravitar.HZ};
        this.show_found('');
        this.go_to(Math.max(debug.start, back[what]() ?? debug.start));
    }
    // Up to the next break or watch; where there is none, the game plays.
    async do_go(breaks = this.workshop.stops.breaks()) {
        const {debug} = this, at = this.clock, {watches} = this.workshop.stops;
        if (!breaks.length && !watches.length) { this.player.go(performance.now()); return; }
        const going = debug.go(at, {breaks, watches, to: at + FAR});
        const stop = await this.in_slices(going, it => `at clock ${number_words(it)}…`);
        if (!stop) return;
        this.go_to(stop.clock);
        this.show_stop(stop);
    }
    do_line() {
        const line = this.view.editors.processor.cursor();
        const entry = this.workshop.build?.listing?.from_line('processor', line);
        if (entry) return this.do_go([entry.address]);
        this.page.say('no line of the processor’s source');
        return undefined;
    }
    do_break() {
        this.workshop.stops.toggle_line('processor', this.view.editors.processor.cursor());
    }
    do_until() {
        const to = Number($('until').value.replace(/[^\d]/g, '')) || 0;
        this.go_to(Math.max(this.debug.start, Math.min(to, this.clock + 60 * Gravitar.HZ)));
    }
    do_watch() { this.workshop.stops.add_watch($('watch').value); }
    // What a generator returns, a slice a frame; undefined where other work has begun.
    async in_slices(going, words, is_over = () => false) {
        const work = ++this.work;
        for (let it = going.next(); ; it = going.next()) {
            if (it.done) return it.value;
            if (is_over(it.value)) return null;
            this.show_found(words(it.value));
            await next_frame();
            if (work !== this.work) return undefined;
        }
    }

    // ---- who wrote a byte

    do_who() { return this.find_byte(address => this.who(address)); }
    do_changed() { return this.find_byte(address => this.who(address, {changed: true})); }
    find_byte(doing) {
        const address = this.view.address($('watch').value);
        return address === undefined ? this.page.say('Whose byte? A name or an address.') :
            doing(address);
    }
    // In front of the instruction that wrote a byte last, or that changed it last.
    async who(address, {changed = false} = {}) {
        const name = this.view.name_of(address), verb = changed ? 'changed' : 'written';
        if (!is_watchable(address)) {
            this.show_found(`${name}: only RAM and vector RAM are written`);
            return;
        }
        const it = await this.search(address, this.clock, {changed});
        if (it === undefined) return;
        if (it === null) { this.show_found(`${name} wasn’t ${verb} in the minute before`); return; }
        this.go_to(it.begin);
        this.view.reveal(it.pc);
        this.workshop.show_tool('debug');
        this.show_found(`${name} was ${verb} last by ${this.writer_words(it)}, whose first clock ` +
            `is ${number_words(it.begin)}: ${this.byte_words(address, it)}`);
    }
    writer_words({pc, is_interrupt}) {
        const words = this.view.words_of(pc) || address_words(pc);
        return is_interrupt ? `the interrupt at ${words}` : words;
    }
    byte_words(address, {begin, clock}) {
        const at = address < 0x800 ? 260 + address : 2308 + address - 0x2000;
        const [before, after] = [begin, clock].map(it =>
            Gravitar.hex(this.debug.board(it)[at], 2));
        return before === after ? `${after} stays` : `${before} becomes ${after}`;
    }
    // The turn that wrote a byte last, null, or undefined where other work has begun.
    search(address, clock, {changed = false, most = FAR_BACK} = {}) {
        if (this.player.state === 'running') this.player.pause();
        const {debug} = this;
        const going = changed ? debug.last_change(clock, address) :
            debug.last_write(clock, address);
        return this.in_slices(going, it => `back at clock ${number_words(it)}…`,
            it => clock - it > most);
    }
}
