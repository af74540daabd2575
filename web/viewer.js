// A look at one log or two, which nothing runs: the picture at a clock, the lines around it, levels
// as lanes, and the sound of the A and B lines.
'use strict';

const LANE_COLOURS = ['#7cc4ff', '#5aa9ee', '#4c8fd6', '#3f76b8', '#ffc27c', '#eeab5a', '#d6954c',
    '#b87d3f'];
const LANE_SPAN = 75600;  // clocks that the lanes show: a twentieth of a second
const LANE_GUTTER = 52;                         // pixels on the left, for names
const RUN_ROWS = [['strokes', '#7a8494'], ['levels', '#7cc4ff'], ['latch', '#7fd88f'],
    ['resets', '#ff8f84']];

class Lanes {
    constructor(canvas) {
        this.canvas = canvas;
        this.plane = canvas.getContext('2d');
    }
    resize() {
        const ratio = devicePixelRatio || 1, {clientWidth, clientHeight} = this.canvas;
        const width = Math.round(clientWidth * ratio), height = Math.round(clientHeight * ratio);
        if (this.canvas.width !== width || this.canvas.height !== height) {
            Object.assign(this.canvas, {width, height});
            this.counts = null;
        }
        this.plane.setTransform(ratio, 0, 0, ratio, 0, 0);
        this.plane.font = '11px system-ui, sans-serif';
        Object.assign(this, {width: clientWidth - LANE_GUTTER, height: clientHeight});
    }
    // How many strokes, level records, latch writes and resets each column of the whole run has.
    count(log) {
        if (this.counts && this.counted === log) return;
        this.counted = log;
        this.counts = [0, 1, 2, 3].map(() => new Float64Array(Math.max(1, Math.ceil(this.width))));
        const share = this.width / (log.end - log.start + 1);
        for (let i = 0; i < log.count; i++) {
            const kind = log.kind[i];
            if (kind < 5) this.counts[[0, 1, 1, 2,
                3][kind]][(log.clock[i] - log.start) * share | 0]++;
        }
    }
    draw(log, clock) {
        this.resize();
        if (this.width <= 0) return;
        this.count(log);
        this.plane.clearRect(0, 0, this.width + LANE_GUTTER, this.height);
        this.draw_run(log, clock);
        this.draw_levels(log, clock);
    }
    draw_run(log, clock) {
        const plane = this.plane;
        this.counts.forEach((counts, k) => {
            const most = counts.reduce((a, b) => Math.max(a, b), 1);
            plane.fillStyle = RUN_ROWS[k][1];
            plane.fillText(RUN_ROWS[k][0], 0, 12 * k + 10);
            counts.forEach((many, x) => {
                const high = many && Math.max(1, 10 * many / most);
                plane.fillRect(LANE_GUTTER + x, 12 * k + 11 - high, 1, high);
            });
        });
        plane.fillStyle = '#fff';
        const share = (clock - log.start) / (log.end - log.start + 1);
        plane.fillRect(LANE_GUTTER + share * this.width, 0, 1, 48);
    }
    // Eight lanes around a clock: each level as a step, 0 at the foot of its lane and 15 at its
    // top.
    draw_levels(log, clock) {
        const plane = this.plane, top = 58, high = (this.height - top) / 8;
        const from = clock - LANE_SPAN / 2, first = log.first_at(from), before = log.levels(first);
        for (let lane = 0; lane < 8; lane++) {
            const foot = top + high * (lane + 1) - 2;
            plane.fillStyle = plane.strokeStyle = LANE_COLOURS[lane];
            plane.fillText(`${'AB'[lane >> 2]}${(lane & 3) + 1}`, 0, foot);
            this.draw_lane(log, lane,
                {from, first, foot, high, level: before[lane >> 2][lane & 3]});
        }
        plane.fillStyle = '#fff9';
        plane.fillRect(LANE_GUTTER + this.width / 2, top, 1, this.height - top);
    }
    draw_lane(log, lane, {from, first, foot, high, level}) {
        const plane = this.plane, share = this.width / LANE_SPAN, kind = 1 + (lane >> 2);
        const y = it => foot - it * (high - 4) / 15;
        plane.beginPath();
        plane.moveTo(LANE_GUTTER, y(level));
        for (let i = first; i < log.count && log.clock[i] <= from + LANE_SPAN; i++) {
            if (log.kind[i] !== kind) continue;
            const next = log.values[4 * i + (lane & 3)];
            if (next === level) continue;
            const x = LANE_GUTTER + (log.clock[i] - from) * share;
            plane.lineTo(x, y(level));
            plane.lineTo(x, y(next));
            level = next;
        }
        plane.lineTo(LANE_GUTTER + this.width, y(level));
        plane.stroke();
    }
}

class Viewer {
    constructor() {
        this.logs = [];                         // one, or two to compare: {name, log}
        this.at = 0;
        this.speed = 1;
        this.is_playing = false;
        this.difference = null;                 // the first line at which two logs differ
    }
    get log() { return this.logs[0]?.log; }
    // The first log, or the second beside it.
    add(name, log) {
        this.is_playing = false;
        if (this.logs.length === 2) this.logs.pop();
        this.logs.push({name, log});
        if (this.logs.length === 1) { this.at = log.start; this.difference = null; return; }
        const line = this.log.difference(log);
        this.difference = line === null ? null : {line, clock: this.clock_of_line(line)};
        this.at = this.difference?.clock ?? this.at;
    }
    clear() { this.logs = []; this.is_playing = false; this.difference = null; }
    clock_of_line(line) {
        const clocks = this.logs.filter(it => line < it.log.count).map(it => it.log.clock[line]);
        return Math.min(...clocks);
    }
    get start() { return Math.min(...this.logs.map(it => it.log.start)); }
    get end() { return Math.max(...this.logs.map(it => it.log.end)); }
    go(clock) { this.at = Math.max(this.start, Math.min(this.end, Math.floor(clock))); }
    // To the record before or after this clock.
    go_record(way) {
        const log = this.log, i = way > 0 ? log.first_at(this.at + 1) : log.first_at(this.at) - 1;
        if (i >= 0 && i < log.count) this.go(log.clock[i]);
    }
    // Milliseconds go by; the records of levels on the way, for the ear.
    frame(milliseconds) {
        const from = Math.floor(this.at);
        this.at = Math.min(this.end, this.at + milliseconds * this.speed * Gravitar.HZ / 1000);
        if (this.at >= this.end) this.is_playing = false;
        const log = this.log, to = Math.floor(this.at);
        return {records: log.level_records(from, to), clock: to,
            levels: log.levels(log.first_at(to + 1))};
    }
    strokes(which, alone) {
        const log = this.logs[which].log, clock = Math.floor(this.at);
        const glow = alone ? {whole: 0, fade: 4000} : GLOW;
        return strokes_seen(log.strokes(clock - SEEN, clock), clock, glow);
    }
    box(which) {
        const log = this.logs[which].log;
        if (log.box !== undefined) return log.box;
        const b = {x0: Infinity, y0: Infinity, x1: -Infinity, y1: -Infinity}, v = log.values;
        for (let i = 0; i < log.count; i++) {
            if (log.kind[i] !== 0) continue;
            b.x0 = Math.min(b.x0, v[4 * i], v[4 * i + 2]);
            b.y0 = Math.min(b.y0, v[4 * i + 1], v[4 * i + 3]);
            b.x1 = Math.max(b.x1, v[4 * i], v[4 * i + 2]);
            b.y1 = Math.max(b.y1, v[4 * i + 1], v[4 * i + 3]);
        }
        log.box = b.x0 === Infinity ? null : b;
        return log.box;
    }
    // The lines around this clock, as pieces {text, is_now, differs}.
    lines(before = 9, after = 14) {
        const log = this.log, now = log.first_at(Math.floor(this.at) + 1) - 1, list = [];
        for (let i = Math.max(0, now - before); i < Math.min(log.count, now + after); i++) {
            list.push({line: i, text: log.line_text(i), is_now: i === now,
                       differs: i === this.difference?.line});
        }
        return list;
    }
    levels_text() {
        const [a, b] = this.log.levels(this.log.first_at(Math.floor(this.at) + 1));
        const row = (name,
            it) => `${name}  ${it.map(level => String(level).padStart(2)).join(' ')}`;
        return `${row('POKEY 1', a)}\n${row('POKEY 2', b)}`;
    }
    words() {
        const many = new Intl.NumberFormat('en');
        return this.logs.map(({name, log}) => `${name}: ${many.format(log.count)} lines, ` +
            `${((log.end - log.start) / Gravitar.HZ).toFixed(2)} s`).join('\n');
    }
    difference_words() {
        if (this.logs.length < 2) return '';
        if (!this.difference) return 'Both logs are the same, line by line.';
        const {line, clock} = this.difference;
        const text = it => line < it.log.count ? it.log.line_text(line) : 'no more lines';
        return `They differ first at line ${line + 1}, clock ${clock}:\n` +
            this.logs.map((it, i) => `${i + 1}: ${text(it)}`).join('\n');
    }
}
