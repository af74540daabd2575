// The tools of the workshop on the screen: debugger, memory, profile, pictures. Each shows what a
// command of the program prints, with the names of the sources beside it.
'use strict';

const FLAGS = 'NV-BDIZC', BYTES_SHOWN = 256, LINES_SHOWN = 15;
const number_words = it => new Intl.NumberFormat('en').format(it);

// Rows {cells, ..} as a table: the first cell of a row is a button where the row leads somewhere.
function rows_of(rows, clicked) {
    return rows.map(it => {
        const row = element('div', {className: `entry ${it.kind ?? ''}`, title: it.title ?? ''},
            ...it.cells.map(cell => typeof cell === 'string' ? element('span', {}, cell) : cell));
        if (it.to !== undefined) {
            Object.assign(row, {tabIndex: 0, onclick: () => clicked(it.to),
                onkeydown: event => { if (event.key === 'Enter') clicked(it.to); }});
            row.setAttribute('role', 'button');
        }
        return row;
    });
}

class DebugTool {
    constructor(workshop) { this.workshop = workshop; }
    show(clock) {
        const {debug} = this.workshop, {pc} = debug.place(clock);
        const from = this.first_line(pc);
        const text = debug.shows(clock, 'regs', 'dev',
            `dis ${address_words(from)} ${LINES_SHOWN}`).split('\n');
        this.show_registers(text.slice(0, 2).join('\n'), debug.place(clock).is_inside);
        $('devices').textContent = text.slice(2, 9).join('\n');
        this.show_disassembly(text.slice(9).filter(Boolean), pc);
        this.show_stops();
    }
    // A few listed lines in front of pc, where they follow each other.
    first_line(pc) {
        const {build} = this.workshop;
        if (!build?.listing) return pc;
        const {sorted} = build.listing;
        let at = build.listing.place(pc);
        if (at < 0) return pc;
        for (let i = 0; i < 5 && at > 0; i++) {
            if (sorted[at - 1].address + sorted[at - 1].length !== sorted[at].address) break;
            at--;
        }
        return sorted[at].address;
    }
    show_registers(text, is_inside) {
        const it = registers_of(text), {workshop} = this, hex2 = value => Gravitar.hex(value, 2);
        const cell = (name, value) => element('span', {}, element('i', {}, name),
            element('b', {}, value));
        const flags = [...FLAGS].map((name, i) => {
            const is_on = it.p >> 7 - i & 1;
            return element('span', {className: is_on ? 'is-on' : ''}, name);
        });
        const where = workshop.view.words_of(it.pc);
        $('registers').replaceChildren(
            element('div', {className: 'cells'}, cell('PC', address_words(it.pc)),
                cell('A', hex2(it.a)), cell('X', hex2(it.x)), cell('Y', hex2(it.y)),
                cell('S', hex2(it.s)), element('span', {className: 'flags'}, ...flags)),
            element('p', {className: 'quiet'},
                `clock ${number_words(it.clock)}${where ? ` · ${where}` : ''}` +
                `${is_inside ? ' · inside it' : ''}`));
    }
    show_disassembly(lines, pc) {
        const {workshop} = this, names = workshop.build?.names, rows = [];
        for (const line of lines) {
            const address = parseInt(line.slice(0, 4), 16), label = names?.labels.processor
                .get(address);
            if (label) rows.push({cells: [`${label}:`], kind: 'is-label'});
            const text = line.slice(16), to = /\$([0-9A-F]{4}|[0-9A-F]{2})\b/.exec(text);
            const name = to && !text.includes('#') ? names?.name(parseInt(to[1], 16)) ?? '' : '';
            const kind = `${address === pc ? 'is-pc' : ''} ` +
                `${workshop.stops.breaks().includes(address) ? 'has-break' : ''}`;
            rows.push({to: address, kind, cells: [element('span', {className: 'dot'}),
                line.slice(0, 4), element('span', {className: 'bytes'}, line.slice(6, 15).trim()),
                element('span', {className: 'text'}, text), element('i', {}, name)]});
        }
        $('disassembly').replaceChildren(...rows_of(rows, it => workshop.view.reveal(it)));
        $('disassembly').querySelectorAll('.dot').forEach(dot => {
            dot.onclick = event => {
                event.stopPropagation();
                workshop.stops.toggle_address(parseInt(dot.nextSibling.textContent, 16));
            };
        });
    }
    show_stops() {
        const {workshop} = this;
        const row = (kind, address) => {
            const remove = element('button', {type: 'button', textContent: '✕',
                ariaLabel: `forget ${kind} ${address_words(address)}`});
            remove.onclick = event => {
                event.stopPropagation();
                if (kind === 'break') workshop.stops.toggle_address(address);
                else workshop.stops.remove_watch(address);
                workshop.refresh();
            };
            const words = kind === 'break' ? workshop.view.words_of(address) :
                workshop.build?.names?.name(address) ?? '';
            return {to: address, cells: [kind, address_words(address), words, remove]};
        };
        const rows = [...workshop.stops.breaks().map(it => row('break', it)),
            ...workshop.stops.watches.map(it => row('watch', it))];
        $('stops').replaceChildren(...rows_of(rows, it => workshop.view.reveal(it)));
        if (!rows.length) {
            $('stops').append(element('p', {className: 'quiet'},
                'Click a line’s number to stop there.'));
        }
    }
}

class MemoryTool {
    constructor(workshop) {
        this.workshop = workshop;
        this.at = 0;
        $('memory-area').onchange = () => this.go(parseInt($('memory-area').value, 16));
        $('memory-at').onchange = () => {
            const address = workshop.view.address($('memory-at').value);
            if (address === undefined) workshop.page.say(`no address ${$('memory-at').value}`);
            else this.go(address);
        };
        $('memory-before').onclick = () => this.go(this.at - BYTES_SHOWN);
        $('memory-after').onclick = () => this.go(this.at + BYTES_SHOWN);
    }
    go(address) { this.at = address & 0xFFF0; this.workshop.refresh(); }
    show(clock) {
        const {workshop, at} = this, is_vector = at >= 0x2000 && at < 0x6000;
        const lines = [`mem ${address_words(at)} ${BYTES_SHOWN}`];
        if (is_vector) lines.push(`vdis ${address_words(at)} 40`);
        else lines.push(`dis ${address_words(at)} 24`);
        const text = workshop.debug.shows(clock, ...lines).split('\n').filter(Boolean);
        if (document.activeElement !== $('memory-at')) $('memory-at').value = address_words(at);
        $('memory').replaceChildren(...text.slice(0, BYTES_SHOWN / 16).map(it => this.row(it)));
        const rows = text.slice(BYTES_SHOWN / 16).map(it => {
            const address = parseInt(it.slice(0, 4), 16);
            const entry = workshop.build?.listing?.at(address);
            const where = entry?.part === 'generator' ? `line ${entry.line}` : '';
            return {to: address, cells: [it.slice(0, 4), it.slice(6), element('i', {}, where)]};
        });
        const shown = at < 0x800 ? this.data_rows(clock) : rows;
        $('statements').replaceChildren(...rows_of(shown, it => workshop.words.reveal(it)));
    }
    row(line) {
        const address = parseInt(line.slice(0, 4), 16), names = this.workshop.build?.names;
        const bytes = line.slice(6).split(' ').map((byte, i) => {
            const name = names?.name(address + i) ?? '', words = address_words(address + i);
            const it = element('span', {title: `${words} ${name}`}, byte);
            it.classList.toggle('has-name', Boolean(names?.data.has(address + i)));
            it.classList.toggle('is-zero', byte === '00' || byte === '--');
            it.onclick = () => this.workshop.moves.who(address + i);
            return it;
        });
        return element('div', {className: 'bytes'}, element('i', {}, line.slice(0, 4)), ...bytes);
    }
    // The RAM's names with their bytes.
    data_rows(clock) {
        const {workshop} = this, data = workshop.build?.names?.data ?? new Map();
        const board = workshop.debug.board(clock);
        return [...data].filter(it => it[0] >= this.at && it[0] < this.at + BYTES_SHOWN)
            .sort((a, b) => a[0] - b[0]).map(([address, name]) => ({to: address, cells: [
                address_words(address), name, Gravitar.hex(board[260 + address], 2),
                String(board[260 + address])]}));
    }
}

// The clocks of the longest bar: of the dearest routine, or of the next where one that waits has
// more than half of all.
function bar_scale(routines) {
    const [first, next] = routines;
    return (first?.share > 0.5 && next ? next : first)?.clocks || 1;
}

class ProfileTool {
    constructor(workshop) {
        Object.assign(this, {workshop, profile: null, job: null, words: ''});
        for (const it of document.querySelectorAll('[data-profile]')) {
            it.onclick = () => this.measure(it.dataset.profile);
        }
        $('profile-cancel').onclick = () => this.cancel();
    }
    // The profile of an image, or of a play, that isn't there any more.
    forget() {
        Object.assign(this, {profile: null, words: ''});
        this.cancel();
    }
    cancel() {
        this.job?.cancel();
        this.job = null;
        $('profile-cancel').hidden = true;
        $('profile-words').textContent = this.words;
    }
    measure(span) {
        const {workshop} = this, to = workshop.clock, {debug} = workshop, {start} = debug;
        this.cancel();
        if (to <= start) return undefined;
        if (span === 'play') return this.measure_play(start, to);
        const second = Math.max(start, to - Gravitar.HZ);
        const from = second === start ? start : debug.outermost(second, to);
        const {library, session} = debug, rate = Pictures.of(library, session, from, to).rate();
        this.take({profile: Profile.of(library, session, from, to), rate}, to);
        return undefined;
    }
    // The page goes on meanwhile.
    async measure_play(from, to) {
        const {debug} = this.workshop, start_worker = () => CommandWorker.start(GRAVITAR_MODULE);
        const job = this.job = new ProfileJob(debug.library, debug, from, to, start_worker);
        $('profile-cancel').hidden = false;
        const found = await job.run(share => {
            if (job !== this.job) return;
            $('profile-words').textContent =
                `measures the whole play: about ${Math.round(100 * share)} %`;
        }).catch(error => { this.workshop.page.say(error.message); });
        if (job !== this.job) return;
        this.cancel();
        if (found) this.take(found, to, debug);
    }
    take({profile, rate}, to, debug = this.workshop.debug) {
        const {library, session, start} = debug;
        const near = Math.max(start, to - Gravitar.HZ / 2);
        const halts = debug.stops_between(near, to, ['stopvg']).map(it => it.clock);
        const share = drawing_share(Pictures.of(library, session, near, to), halts);
        const accesses = profile.routines.reduce((sum, it) => sum + it.accesses, 0);
        this.profile = profile;
        this.words = `${number_words(profile.clocks)} clocks · ${rate.toFixed(1)} pictures a ` +
            `second · the generator draws ${(100 * share).toFixed(0)} % of the time · ` +
            `${number_words(accesses)} device accesses`;
        $('profile-words').textContent = this.words;
        this.show_rows();
        this.workshop.view.show_shares(profile);
    }
    show_rows() {
        const {workshop} = this, scale = bar_scale(this.profile.routines);
        const head = {kind: 'head', cells: ['routine', 'clocks', '%', 'calls', 'devices']};
        const rows = this.profile.routines.map(it => {
            const bar = element('b', {className: 'bar'});
            bar.style.width = `${Math.min(100, 100 * it.clocks / scale)}%`;
            bar.classList.toggle('is-over', it.clocks > scale);
            const name = workshop.build?.names?.name(it.address) || address_words(it.address);
            return {to: it.address, title: workshop.view.words_of(it.address), cells: [
                element('span', {className: 'name'}, name, bar), number_words(it.clocks),
                (100 * it.share).toFixed(1), number_words(it.entries), number_words(it.accesses)]};
        });
        $('profile').replaceChildren(...rows_of([head, ...rows], it => workshop.view.reveal(it)));
    }
    show() { if (!this.profile && !this.job) this.measure('second'); }
}

class PicturesTool {
    constructor(workshop) { this.workshop = workshop; }
    show(clock) {
        const {workshop} = this, {library, session} = workshop.debug;
        const from = Math.max(workshop.debug.start, clock - Gravitar.HZ);
        if (clock <= from) return;
        const pictures = Pictures.of(library, session, from, clock), list = pictures.started;
        const strokes = list.reduce((sum, it) => sum + it.strokes, 0);
        $('pictures-words').textContent = `${list.length} pictures in the last second, ` +
            `${pictures.rate().toFixed(1)} a second, ` +
            `${(strokes / (list.length || 1)).toFixed(1)} strokes each`;
        const size = box => box ? `${box[2] - box[0] >> 14} × ${box[3] - box[1] >> 14}` : '';
        const head = {kind: 'head', cells: ['begins at', 'clocks', 'strokes', 'box']};
        const rows = list.reverse().map(it => ({to: it.clock, title: it.box?.join(' '),
            cells: [number_words(it.clock), number_words(it.clocks), String(it.strokes),
                size(it.box)]}));
        $('pictures').replaceChildren(...rows_of([head, ...rows], it => workshop.moves.go_to(it)));
    }
}
