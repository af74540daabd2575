/* The board, a session with its tape, and the sound as numbers. Nothing here knows a browser:
 * web/test runs it under Node. In a page it is the one global `Gravitar`, under Node what `require`
 * gives. Formats and words are those of docs/FORMATS.md and docs/COMMANDS.md. Logs, pictures and
 * sound files are in files of their own.
 *
 * Library       the calls of include/gravitar.h: `await Library.load(the module's bytes or base64)`
 *   power_on()                             the board at power-on
 *   assemble(processor, generator)         the image of two sources, which are bytes
 *   advance(image, board, tape, clock, {boundary, timers})   {board, output, clock, jammed}: lines
 *   records(image, board, tape, clock, {boundary, timers})   the same with records of 40 bytes
 *   pcm(image, board, tape, clock, per, {timers})            the same with samples of 4 bytes
 *   command(words, files)                  a command line over files of {name, bytes}, as the program
 *                                          does it: {status, out, note, stores of {name, bytes}}
 *   refuses with Refused {status, place, words, message}; `message` is what a person reads
 * Session       a run that is played: `new Session(library, image, {board, cells, tape, timers})`
 *   clock, board, jammed, start, image, timers, inputs, is_at_power_on (the start)
 *   set(port, value, clock = now)          an input; those at later clocks are dropped
 *   port(name)                             the byte of a port, with what is set from now on
 *   run(clock)                             runs to just that clock; returns the records on the way
 *   look(clock, from = clock)              {board, records} of any clock that was done
 *   rewind(clock)                          goes back, and drops the inputs from there on
 *   go_back(clock)                         goes back, and keeps them: a tape is watched again
 *   is_playing_tape()                      whether the tape that was opened is still going on
 *   pieces(from, to)                       {records, clock} of a long stretch, piece by piece
 *   tape()  cells()                        bytes to be saved; the board is `board`
 *   log()                                  what `gravitar run` writes for this tape, in parts
 *   files(name)  command(name)             the files of the run, and the command over them
 * Levels        sums of levels over steps, exactly; Mixer: samples at any rate, from records
 * Functions     clock_of, ports_of, cells_of, levels_of, board_text: of a board
 *               words_of, clock_in, lines_of: of records
 *               sha256, text, string_of, bytes_of_base64, joined, hex
 *               core: the function that is all of this file, for a worker
 */
'use strict';

// A function with a name: a worker (worker.js) is made of its text, since a page of files can't
// read its scripts.
function gravitar_core(scope) {

const HZ = 1512000, FRAME = 25200, BOARD_LEN = 4356, IMAGE_LEN = 43008, RECORD_LEN = 40;
const CELLS_AT = 196, CELLS_LEN = 64, POKEYS_AT = [84, 137], CLOCK_LIMIT = 2 ** 48;
const STROKE = 0, POKEY_1 = 1, POKEY_2 = 2, LATCH = 3, WATCHDOG = 4;
const VERSION = 3, DONE = 0, JAMMED = 1, NO_ROOM = 6, NO_MEMORY = 7;
const PORTS = ['IN0', 'IN3', 'IN4', 'P0', 'P1', 'P2', 'P3', 'P4', 'P5', 'P6', 'P7',
               'Q0', 'Q1', 'Q2', 'Q3', 'Q4', 'Q5', 'Q6', 'Q7'];
const PORT_PLACES = PORTS.map((_, i) =>
    i < 3 ? 22 + i : i < 11 ? POKEYS_AT[0] + 41 + i - 3 : POKEYS_AT[1] + 41 + i - 11);
// What a status of include/gravitar.h is about, and what its place is.
const STATUS = ['done', 'jammed', 'image', 'saved board', 'tape', 'number', 'no room', 'no memory',
                'processor source', 'generator source', 'saved board', 'saved board', 'request'];
const PLACE = ['', '', 'length ', 'field ', 'line ', '', '', '', 'line ', 'line ', 'length ',
               'version ', 'byte '];
const ANSWER_HEAD = 32;

// ---- bytes

function text(string) { return new TextEncoder().encode(string); }
function string_of(bytes) { return new TextDecoder().decode(bytes); }
function view_of(bytes) { return new DataView(bytes.buffer, bytes.byteOffset, bytes.byteLength); }
function hex(number, digits) { return number.toString(16).toUpperCase().padStart(digits, '0'); }
function bytes_of_base64(string) { return Uint8Array.from(atob(string), it => it.charCodeAt(0)); }
function joined(parts) {
    const all = new Uint8Array(parts.reduce((sum, it) => sum + it.length, 0));
    let at = 0;
    for (const part of parts) { all.set(part, at); at += part.length; }
    return all;
}

// The SHA-256 of bytes, 64 hexadecimal digits. A page of file:// has no such call in every browser.
function sha256(bytes) {
    const roots = (power, count) => {
        const found = [];
        for (let n = 2; found.length < count; n++)
            if (!found.some(it => n % it.prime === 0))
                found.push({prime: n, word: (n ** power % 1) * 2 ** 32 | 0});
        return Int32Array.from(found, it => it.word);
    };
    const sum = roots(1 / 2, 8), rounds = roots(1 / 3, 64), turn = (x, n) => x >>> n | x << 32 - n;
    const padded = new Uint8Array((bytes.length + 72) & ~63), w = new Int32Array(64);
    padded.set(bytes);
    padded[bytes.length] = 128;
    const view = view_of(padded);
    view.setBigUint64(padded.length - 8, BigInt(bytes.length) * 8n);
    for (let block = 0; block < padded.length; block += 64) {
        for (let i = 0; i < 64; i++) {
            const x = i < 16 ? 0 : w[i - 15], y = i < 16 ? 0 : w[i - 2];
            w[i] = i < 16 ? view.getInt32(block + 4 * i) : w[i - 16] + w[i - 7] +
                (turn(x, 7) ^ turn(x, 18) ^ x >>> 3) + (turn(y, 17) ^ turn(y, 19) ^ y >>> 10);
        }
        let [a, b, c, d, e, f, g, h] = sum;
        for (let i = 0; i < 64; i++) {
            const s = turn(e, 6) ^ turn(e, 11) ^ turn(e, 25);
            const one = h + s + (e & f ^ ~e & g) + rounds[i] + w[i] | 0;
            const two = (turn(a, 2) ^ turn(a, 13) ^ turn(a, 22)) + (a & b ^ a & c ^ b & c) | 0;
            [h, g, f, e, d, c, b, a] = [g, f, e, d + one | 0, c, b, a, one + two | 0];
        }
        [a, b, c, d, e, f, g, h].forEach((it, i) => { sum[i] += it; });
    }
    return Array.from(sum, it => hex(it >>> 0, 8).toLowerCase()).join('');
}

// ---- a command line as bytes (docs/FORMATS.md)

function number_bytes(number) {
    const bytes = new Uint8Array(8);
    view_of(bytes).setBigUint64(0, BigInt(number), true);
    return bytes;
}
function request_of(words, files) {
    const sized = bytes => [number_bytes(bytes.length), bytes];
    return joined([number_bytes(words.length), number_bytes(files.length),
        ...words.flatMap(it => sized(text(it))),
        ...files.flatMap(it => [...sized(text(it.name)), ...sized(it.bytes)])]);
}
function answer_parts(answer) {
    const number = at => Number(view_of(answer).getBigUint64(at, true));
    let at = ANSWER_HEAD;
    const part = length => answer.slice(at, at += length);
    const piece = () => { at += 8; return part(number(at - 8)); };
    const parts = {status: number(0), out: part(number(8)), note: part(number(16)), stores: []};
    while (at < answer.length) parts.stores.push({name: string_of(piece()), bytes: piece()});
    return parts;
}

// ---- the calls

// Bytes or a number that the library refuses.
class Refused extends Error {
    constructor(status, place, said) {
        const cause = said || PLACE[status] + place;
        super(STATUS[status] + (status === NO_MEMORY ? '' : `: ${cause}`));
        Object.assign(this, {status, place, words: said});
    }
}

/* The library over a module of WebAssembly. Nothing is kept between two calls but the length of the
 * buffer for what a call puts out. Lengths and clocks have 64 bits, and are BigInt on the way in.
 *
 * A further call of the header is a method that hands `call` the arguments in the header's order:
 * bytes that are read, `{changed: bytes}` that the call may change, `{room: length}` that it fills,
 * and numbers, BigInt for 64 bits. The report comes last by itself.
 */
class Library {
    static async load(module) {
        const bytes = typeof module === 'string' ? bytes_of_base64(module) : module;
        return new Library((await WebAssembly.instantiate(bytes, {})).instance);
    }
    constructor(instance) {
        this.exports = instance.exports;
        this.output_len = 1 << 16;
        this.answer_len = 1 << 20;
        const version = this.exports.gravitar_version();
        if (version !== VERSION) throw new Error(`version ${version} of the calls, not ${VERSION}`);
    }
    bytes(at, len) { return new Uint8Array(this.exports.memory.buffer, at, len); }
    room(len) {
        const at = this.exports.gravitar_room(BigInt(len)) >>> 0;
        if (!at) throw new Refused(NO_MEMORY, 0, '');
        return at;
    }
    // `written(i, len)` of the answer is what the call left in argument i.
    call(name, ...given) {
        this.exports.gravitar_clear();
        const length_of = it => it.room ?? (it.changed ?? it).length;
        const places = given.map(it => typeof it === 'object' ? this.room(length_of(it)) : 0);
        const report = this.room(24), words = [];
        given.forEach((it, i) => {
            if (!places[i]) { words.push(it); return; }
            if (it.room === undefined) this.bytes(places[i], length_of(it)).set(it.changed ?? it);
            words.push(places[i], BigInt(length_of(it)));
        });
        const status = this.exports[name](...words, report);
        const view = new DataView(this.exports.memory.buffer, report, 24);
        const [clock, used, place] = [0, 8, 16].map(at => Number(view.getBigUint64(at, true)));
        const written = (i, len) => this.bytes(places[i], len).slice();
        return {status, clock, used, place, written};
    }
    power_on() {
        this.exports.gravitar_clear();
        const board = this.room(BOARD_LEN);
        this.exports.gravitar_power_on(board, BigInt(BOARD_LEN));
        return this.bytes(board, BOARD_LEN).slice();
    }
    assemble(processor, generator) {
        const answer = this.call('gravitar_assemble', processor, generator,
            {room: IMAGE_LEN}, {room: 256});
        if (answer.status === DONE) return answer.written(2, IMAGE_LEN);
        throw this.refusal(answer, 3, 256);
    }
    advance(image, board, tape, clock, {boundary = false, timers = false} = {}) {
        return this.stretch('gravitar_advance', image, board, tape, clock, +boundary, timers);
    }
    records(image, board, tape, clock, {boundary = false, timers = false} = {}) {
        return this.stretch('gravitar_records', image, board, tape, clock, +boundary, timers);
    }
    // It always goes on to the first boundary that isn't before the clock.
    pcm(image, board, tape, clock, per, {timers = false} = {}) {
        return this.stretch('gravitar_pcm', image, board, tape, clock, per, timers);
    }
    stretch(name, image, board, tape, clock, number, timers) {
        for (;;) {
            const answer = this.call(name, image, {changed: board}, tape, BigInt(clock), number,
                +timers, {room: this.output_len});
            if (answer.status === NO_ROOM) { this.output_len = 2 * answer.used; continue; }
            if (answer.status > JAMMED) throw this.refusal(answer, 6, this.output_len);
            return {board: answer.written(1, board.length), output: answer.written(6, answer.used),
                    clock: answer.clock, jammed: answer.status === JAMMED};
        }
    }
    command(words, files) {
        const request = request_of(words, files);
        for (;;) {
            const answer = this.call('gravitar_command', request, {room: this.answer_len});
            if (answer.status === DONE) return answer_parts(answer.written(1, answer.used));
            if (answer.status !== NO_ROOM) throw new Refused(answer.status, answer.place, '');
            this.answer_len = 2 * answer.used;
        }
    }
    refusal(answer, note, room) {
        const said = answer.written(note, Math.min(answer.used, room));
        return new Refused(answer.status, answer.place, string_of(said));
    }
}

// ---- boards (docs/FORMATS.md, "Saved board")

function clock_of(board) { return Number(view_of(board).getBigUint64(4, true)); }
function cells_of(board) { return board.slice(CELLS_AT, CELLS_AT + CELLS_LEN); }
function ports_of(board) {
    return Object.fromEntries(PORTS.map((it, i) => [it, board[PORT_PLACES[i]]]));
}
// The four levels of each POKEY.
function levels_of(board) {
    return POKEYS_AT.map(at => Array.from(board.subarray(at + 49, at + 53)));
}

// What `gravitar show` writes of a board.
function board_text(board) {
    const view = view_of(board), short = at => view.getUint16(at, true);
    const byte = at => hex(board[at], 2);
    const bytes = (at, count) => Array.from({length: count}, (_, i) => byte(at + i)).join(' ');
    const middle = ['', 'opcode', 'interrupt', 'reset'][board[30]];
    const pokey = (name, at) => {
        const random = board[at + 8] & 128 ? at + 14 : at + 16;
        return `${name} audf ${bytes(at, 4)} audc ${bytes(at + 4, 4)} audctl ${byte(at + 8)} ` +
            `skctl ${byte(at + 9)} irqen ${board[at + 10]} irqst ${board[at + 11]} ` +
            `random ${byte(random)}`;
    };
    return [
        `clock ${clock_of(board)}`,
        `cpu pc ${hex(short(12), 4)} a ${byte(14)} x ${byte(15)} y ${byte(16)} s ${byte(17)} ` +
            `p ${byte(18)}`,
        `jam ${board[19] ? byte(20) : '-'}`,
        ...(middle ? [`mid ${middle} ${bytes(32, board[31])}`] : []),
        `board out ${byte(21)} in0 ${byte(22)} in3 ${byte(23)} in4 ${byte(24)}`,
        `div phase ${short(25)} irq ${board[27]} dog ${board[28]} reset ${board[29]}`,
        `vg halted ${board[44]} phase ${board[45]} pc ${hex(short(46), 4)} sp ${board[48]} ` +
            `colour ${board[49]} intensity ${board[50]} lin ${board[51]} bin ${board[52]}`,
        `beam ${view.getInt32(66, true)} ${view.getInt32(70, true)}`,
        pokey('pk1', POKEYS_AT[0]), pokey('pk2', POKEYS_AT[1]),
        `earom addr ${byte(190)} control ${byte(192)} hold ${short(193)} out ${byte(195)}`,
        ''].join('\n');
}

// ---- records (include/gravitar.h, struct gravitar_record)

/* Records as numbers of 32 bits, ten each: the clock's low and high half, the kind, six values, 0.
 * Each machine with WebAssembly has the lowest byte first. */
function words_of(records) {
    if (records.byteOffset % 4) records = records.slice();
    return new Int32Array(records.buffer, records.byteOffset, records.length >> 2);
}
function clock_in(words, at) { return (words[at] >>> 0) + words[at + 1] * 4294967296; }
// The lines of the log for records.
function lines_of(records) {
    const words = words_of(records), lines = [];
    for (let at = 0; at < words.length; at += RECORD_LEN / 4) {
        const values = words.subarray(at + 3, at + 9);
        const kind = words[at + 2], clock = clock_in(words, at);
        if (kind === STROKE) lines.push(`S ${clock} ${values.join(' ')}\n`);
        else if (kind === LATCH) lines.push(`L ${clock} ${hex(values[0], 2)}\n`);
        else if (kind === WATCHDOG) lines.push(`W ${clock}\n`);
        else lines.push(`${'AB'[kind - 1]} ${clock} ${values.subarray(0, 4).join(' ')}\n`);
    }
    return lines.join('');
}

// ---- a run that is played

function input_line(it) { return `${it.clock} ${it.port} ${hex(it.value, 2)}\n`; }
// The first of a list, in the order of the clocks, whose clock isn't before this one.
function first_from(list, clock) {
    let low = 0, high = list.length;
    while (low < high) {
        const middle = (low + high) >> 1;
        if (list[middle].clock < clock) low = middle + 1; else high = middle;
    }
    return low;
}

/* A run that is played. `inputs` are {clock, port, value} in the order of their clocks, recorded
 * from the first clock on. An input is at the start of its clock, so a board at clock N has those
 * below N. A board is kept in each quarter of a second, and any clock is run again from the one
 * before it.
 */
class Session {
    static KEEP = HZ / 4;
    constructor(library, image, {board, cells, tape, timers = false} = {}) {
        const start = board ? board.slice() : library.power_on();
        if (cells && cells.length !== CELLS_LEN)
            throw new Error(`EAROM file: length ${cells.length}`);
        if (cells) start.set(cells, CELLS_AT);
        Object.assign(this, {library, image: image.slice(), timers, start, inputs: []});
        // A call that runs nothing refuses what is bad.
        library.records(image, start, tape || text('0 END\n'), 0, {timers});
        const power_on = library.power_on();
        this.is_at_power_on = start.every((it, i) => it === power_on[i]);
        this.kept = [{clock: clock_of(start), board: start}];
        this.take(start);
        if (tape) this.read_tape(string_of(tape));
    }
    take(board) { Object.assign(this, {board, clock: clock_of(board), jammed: board[19] === 1}); }
    // Entries before the start are not applied (docs/FORMATS.md, "Tape").
    read_tape(tape) {
        const lines = tape.split('\n').map(it => it.split(' '));
        this.inputs = lines.filter(it => it.length === 3)
            .map(it => ({clock: Number(it[0]), port: it[1], value: parseInt(it[2], 16)}))
            .filter(it => it.clock >= this.clock);
        this.tape_end = Number(lines.findLast(it => it[1] === 'END')[0]);
    }
    is_playing_tape() { return this.tape_end !== undefined && this.clock < this.tape_end; }

    set(port, value, clock = this.clock) {
        clock = Math.max(Math.floor(clock), this.clock);
        this.drop(clock + 1);
        this.inputs.push({clock, port, value: value & 255});
    }
    drop(clock) {
        this.inputs.length = first_from(this.inputs, clock);
        this.tape_end = undefined;
    }
    port(name) {
        const mask = name === 'IN0' ? 63 : 255;
        for (let i = this.inputs.length - 1; i >= 0 && this.inputs[i].clock >= this.clock; i--)
            if (this.inputs[i].port === name) return this.inputs[i].value & mask;
        return this.board[PORT_PLACES[PORTS.indexOf(name)]];
    }
    // The inputs from a clock to before another one, as a tape that ends there.
    between(from, to) {
        const lines = [];
        const end = first_from(this.inputs, to);
        for (let i = first_from(this.inputs, from); i < end; i++)
            lines.push(input_line(this.inputs[i]));
        return text(lines.join('') + `${to} END\n`);
    }
    step(board, to, {call = 'records', boundary = false} = {}) {
        return this.library[call](this.image, board, this.between(clock_of(board), to), to,
            {timers: this.timers, boundary});
    }
    run(clock) {
        const to = Math.floor(clock), parts = [];
        while (this.clock < to && !this.jammed) {
            const keep = this.kept.at(-1).clock + Session.KEEP;
            const it = this.step(this.board, Math.min(to, Math.max(keep, this.clock + 1)));
            parts.push(it.output);
            this.take(it.board);
            if (this.clock >= keep) this.kept.push({clock: this.clock, board: it.board});
        }
        return parts.length === 1 ? parts[0] : joined(parts);
    }
    kept_before(clock) { return this.kept[Math.max(0, first_from(this.kept, clock + 1) - 1)]; }
    within(clock) { return Math.max(this.kept[0].clock, Math.min(Math.floor(clock), this.clock)); }
    look(clock, from = clock) {
        const to = this.within(clock), begin = Math.min(to, this.within(from));
        let {board, clock: at} = this.kept_before(begin);
        if (begin > at) board = this.step(board, begin).board;
        if (to === begin) return {board, records: new Uint8Array(0)};
        const it = this.step(board, to);
        return {board: it.board, records: it.output};
    }
    go_back(clock) {
        const to = this.within(clock);
        this.take(this.look(to).board);
        this.kept.length = Math.max(1, first_from(this.kept, to + 1));
    }
    rewind(clock) {
        this.go_back(clock);
        this.drop(this.clock);
    }

    // Pieces of a quarter of a second at most: {records, clock}, where each ends. Nothing changes.
    *pieces(from = this.kept[0].clock, to = this.clock) {
        const end = this.within(to);
        let board = this.look(from).board;
        for (let at = clock_of(board); at < end && !board[19]; at = clock_of(board)) {
            const it = this.step(board, Math.min(end, at + Session.KEEP));
            board = it.board;
            yield {records: it.output, clock: it.clock};
        }
    }
    // The inputs so far, as a tape that ends at this clock.
    tape() { return this.between(this.kept[0].clock, this.clock); }
    // What `gravitar run` writes for the saved tape, in parts: it ends at the next boundary.
    *log() {
        let board = this.start;
        for (const kept of [...this.kept.slice(1), {clock: this.clock}]) {
            const boundary = kept.clock === this.clock;
            const it = this.step(board, kept.clock, {call: 'advance', boundary});
            board = it.board;
            yield it.output;
        }
        const jam = ` ${hex(view_of(board).getUint16(12, true), 4)} ${hex(board[20], 2)}`;
        yield text(`${board[19] ? 'X' : 'E'} ${clock_of(board)}${board[19] ? jam : ''}\n`);
    }
    cells() { return cells_of(this.board); }
    // The files that the saved run takes, and the command that gives the log that was seen.
    files(name) {
        const files = [[`${name}.img`, this.image], [`${name}.tape`, this.tape()]];
        if (!this.is_at_power_on) files.push([`${name}.board`, this.start]);
        return files.map(([name, bytes]) => ({name, bytes}));
    }
    command(name) {
        const state = this.is_at_power_on ? '' : ` --state ${name}.board`;
        return `gravitar run ${name}.img ${name}.tape${state}${this.timers ? ' --timers' : ''}`;
    }
}

// ---- sound

/* Sums of the eight levels over steps that needn't be whole clocks, one number for each step that
 * is over. A level is that of its record from the record's clock on. */
class Levels {
    constructor(step, clock = 0, levels = [[0, 0, 0, 0], [0, 0, 0, 0]]) {
        this.step = step;
        this.begin(clock, levels);
    }
    begin(clock, levels) {
        this.level = levels.map(it => it.reduce((a, b) => a + b));
        this.at = clock; this.next = clock + this.step; this.sum = 0;
    }
    advance(clock, sums) {
        const level = this.level[0] + this.level[1];
        while (this.next <= clock) {
            sums.push(this.sum + level * (this.next - this.at));
            this.sum = 0; this.at = this.next; this.next += this.step;
        }
        this.sum += level * (clock - this.at);
        this.at = clock;
    }
    // The sums of a stretch that ends at a clock.
    sums(records, clock) {
        const words = words_of(records), sums = [];
        for (let at = 0; at < words.length; at += RECORD_LEN / 4) {
            const kind = words[at + 2];
            if (kind !== POKEY_1 && kind !== POKEY_2) continue;
            const level = words[at + 3] + words[at + 4] + words[at + 5] + words[at + 6];
            this.set(kind - 1, level, clock_in(words, at), sums);
        }
        this.advance(clock, sums);
        return sums;
    }
    // The sum of a POKEY's levels from a clock on.
    set(pokey, level, clock, sums) {
        this.advance(clock, sums);
        this.level[pokey] = level;
    }
}

/* Samples at any rate, about -1 to 1. Four sums a sample go through a low-pass of 48 numbers (a
 * sinc under a Blackman window), and a high-pass near 20 Hz takes the mean level away. */
class Mixer {
    static MANY = 4;
    static TAPS = 48;
    constructor(rate, clock = 0, levels = undefined) {
        const cut = 0.46 / Mixer.MANY, turn = 2 * Math.PI / (Mixer.TAPS - 1);
        const taps = Float64Array.from({length: Mixer.TAPS}, (_, i) => {
            const x = i - (Mixer.TAPS - 1) / 2;
            return Math.sin(2 * Math.PI * cut * x) / (Math.PI * x) *
                (0.42 - 0.5 * Math.cos(turn * i) + 0.08 * Math.cos(2 * turn * i));
        });
        const whole = taps.reduce((a, b) => a + b);
        this.taps = taps.map(it => it / whole / 120);
        this.rate = rate;
        this.levels = new Levels(HZ / rate / Mixer.MANY, clock, levels);
        this.begin(clock, levels);
    }
    // From a clock on, with the levels of `levels_of`: after a way back, or a jump.
    begin(clock, levels = [[0, 0, 0, 0], [0, 0, 0, 0]]) {
        this.levels.begin(clock, levels);
        const level = this.levels.level[0] + this.levels.level[1];
        this.past = new Float64Array(2 * Mixer.TAPS).fill(level);
        this.place = this.count = 0;
        this.mean = level / 120;
    }
    // Another rate from here on: a small one keeps a device's queue, a large one is another speed.
    set_rate(rate) { this.levels.step = HZ / rate / Mixer.MANY; }
    mix(records, clock) { return this.filter(this.levels.sums(records, clock)); }
    filter(sums) {
        const {TAPS, MANY} = Mixer, count = Math.floor((this.count + sums.length) / MANY);
        const samples = new Float32Array(count);
        let made = 0;
        for (const sum of sums) {
            this.past[this.place] = this.past[this.place + TAPS] = sum / this.levels.step;
            this.place = (this.place + 1) % TAPS;
            if (++this.count < MANY) continue;
            this.count = 0;
            let sample = 0;
            for (let i = 0; i < TAPS; i++) sample += this.taps[i] * this.past[this.place + i];
            this.mean += (sample - this.mean) * 130 / this.rate;
            samples[made++] = sample - this.mean;
        }
        return samples;
    }
}

const Gravitar = {
    HZ, FRAME, BOARD_LEN, IMAGE_LEN, RECORD_LEN, CELLS_LEN, CLOCK_LIMIT, PORTS,
    STROKE, POKEY_1, POKEY_2, LATCH, WATCHDOG, Refused, Library, Session, Levels, Mixer,
    clock_of, ports_of, cells_of, levels_of, board_text, words_of, clock_in, lines_of,
    sha256, text, string_of, bytes_of_base64, joined, hex, core: gravitar_core,
};
if (typeof module === 'object' && module.exports) module.exports = Gravitar;
else scope.Gravitar = Gravitar;

}
gravitar_core(typeof globalThis === 'object' ? globalThis : this);
