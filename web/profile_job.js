// The profile of a whole play while the page goes on: in a worker, or in slices where a browser
// makes none for a page of files. Nothing of the page.
'use strict';

if (typeof require === 'function') {
    globalThis.Gravitar ??= require('./core.js');
    Object.assign(globalThis, require('./profile.js'), require('./worker.js'));
}

class ProfileJob {
    // `start_worker()` gives a worker, or null. The commands are those of the play as it is now.
    constructor(library, debug, from, to, start_worker) {
        Object.assign(this, {library, debug, from, to, start_worker, worker: null,
            is_cancelled: false, first: Math.min(to, from + Gravitar.HZ)});
        const commands = end => ['profile', 'frames'].map(
            verb => command_over(debug.session, verb, from, end));
        Object.assign(this, {of_first: commands(this.first), of_all: commands(to)});
    }
    // {profile, rate} with the pictures a second, or null where it was cancelled. `shows(share)` is
    // called on the way.
    async run(shows) {
        shows(0);
        this.worker = await this.start_worker();
        try {
            if (this.is_cancelled) return null;
            return await (this.worker ? this.run_in_worker(shows) : this.run_in_slices(shows));
        } finally { this.worker?.end(); }
    }
    cancel() {
        this.is_cancelled = true;
        this.worker?.end();
    }
    // The program says nothing on the way: how long its first second takes tells the share.
    async run_in_worker(shows) {
        const {from, to, first} = this;
        let began = performance.now();
        if (await this.measured(this.of_first) === null) return null;
        const whole = (performance.now() - began) * (to - from) / (first - from);
        began = performance.now();
        const timer = setInterval(
            () => shows(Math.min(0.99, (performance.now() - began) / whole)), 100);
        try { return await this.measured(this.of_all); } finally { clearInterval(timer); }
    }
    async measured(commands) {
        const texts = await Promise.all(commands.map(it => this.worker.printed(it)));
        if (texts.includes(null)) return null;
        return {profile: new Profile(texts[0]), rate: new Pictures(texts[1]).rate()};
    }
    async run_in_slices(shows) {
        const going = profile_in_slices(this.library, this.debug, this.from, this.to);
        for (let it = going.next(); ; it = going.next()) {
            if (it.done) return it.value;
            shows(it.value);
            await new Promise(done => setTimeout(done));
            if (this.is_cancelled) return null;
        }
    }
}

if (typeof module === 'object') module.exports = {ProfileJob};
