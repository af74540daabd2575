// Breaks and watches: where the debugger and the running game stop. A break of a line moves with
// its line; one of an address without a line stays there.
'use strict';

const MOST_STOPS = 16;

// Whether a byte can be watched: in RAM or in the vector RAM.
function is_watchable(address) {
    return address !== undefined && (address < 0x800 || address >> 11 === 4);
}

class Stops {
    constructor(workshop) {
        Object.assign(this, {workshop, watches: [], raw_breaks: [], line_breaks: []});
        $('watch').onkeydown = it => { if (it.key === 'Enter') workshop.moves.act('watch'); };
    }
    begun() { Object.assign(this, {watches: [], raw_breaks: []}); }
    // The addresses of the breaks: by the lines of the processor's source, and by themselves. While
    // the source isn't that of the image, they are those of before.
    breaks() {
        const {build, assembly, view} = this.workshop;
        if (!assembly.is_stale) {
            this.line_breaks = [...view.editors.processor.breaks].sort((a, b) => a - b)
                .map(it => build?.listing?.on_line('processor', it)?.address)
                .filter(it => it !== undefined);
        }
        return [...new Set([...this.line_breaks, ...this.raw_breaks])].slice(0, MOST_STOPS);
    }
    toggle_line(part, line) {
        const {workshop} = this;
        if (part !== 'processor') { workshop.words.cursor(part, line); return; }
        const it = workshop.view.editors.processor;
        const entry = workshop.build?.listing?.from_line(part, line);
        if (!entry) return;
        if (!it.breaks.delete(entry.line)) it.breaks.add(entry.line);
        this.breaks();
        it.render();
        workshop.refresh();
    }
    toggle_address(address) {
        const entry = this.workshop.build?.listing?.at(address);
        const is_raw = this.raw_breaks.includes(address);
        if (entry?.address === address && !is_raw) this.toggle_line('processor', entry.line);
        else if (is_raw) this.raw_breaks = this.raw_breaks.filter(it => it !== address);
        else this.raw_breaks.push(address);
        this.workshop.refresh();
    }
    add_watch(words) {
        const {page, view} = this.workshop, address = view.address(words);
        if (!is_watchable(address)) { page.say('Only RAM and vector RAM can be watched.'); return; }
        const is_new = !this.watches.includes(address);
        if (is_new && this.watches.length >= MOST_STOPS) {
            page.say(`${MOST_STOPS} bytes are watched already.`);
            return;
        }
        if (is_new) this.watches.push(address);
        $('watch').value = '';
        this.workshop.refresh();
    }
    remove_watch(address) {
        this.watches = this.watches.filter(it => it !== address);
        this.workshop.refresh();
    }
    // The stop of a running game in a stretch that it is about to run, or null.
    stop_before(from, to) {
        const {workshop} = this;
        if (!workshop.is_open) return null;
        return workshop.debug.stop_before(from, to,
            {breaks: this.breaks(), watches: this.watches});
    }
}
