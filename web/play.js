// The page: a player (player.js) or a viewer of logs (viewer.js) on the screen, with its keys and
// files.
'use strict';

const SPEEDS = [1 / 64, 1 / 16, 1 / 4, 1 / 2, 1, 2, 4, 8];
const $ = id => document.getElementById(id);

function download(name, parts) {
    const link = element('a', {href: URL.createObjectURL(new Blob(parts)), download: name});
    document.body.append(link);
    link.click();
    link.remove();
    setTimeout(() => URL.revokeObjectURL(link.href), 60000);
}

class Page {
    constructor(library) {
        this.library = library;
        this.shelf = Shelf.of_browser();
        this.screen = new Screen($('canvas'), {plane: location.hash === '#2d'});
        this.second = null;                     // the second log's screen
        this.viewer = new Viewer();
        this.lanes = new Lanes($('lanes'));
        this.speaker = new Speaker();
        this.chosen = null;
        this.on = [];                           // switches that are on
        this.frames = 0;
        this.workshop = new Workshop(this);
        this.player = new Player(library, {
            hears: (records, clock, levels) => this.hear(records, clock, levels),
            breaks: () => this.speaker.clear(),
        });
        this.player.stops = (from, to) => this.workshop.stops.stop_before(from, to);
        this.player.stopped = stop => this.workshop.moves.stopped(stop);
    }
    // What a project keeps beside its sources.
    get settings() { return {layout: {...this.layout, on: this.on}, fits: this.screen.fits}; }
    get is_log() { return document.body.dataset.mode === 'log'; }
    hear(records, clock, levels) { this.speaker.hear(records, clock, levels, this.speed); }

    // ---- words on the screen

    say(words, good = false) {
        $('message').textContent = words;
        $('message').hidden = !words;
        $('message').classList.toggle('good', good);
        clearTimeout(this.quiet);
        if (good) this.quiet = setTimeout(() => this.say(''), 6000);
    }
    // Runs something; what is refused is said.
    attempt(doing, sources) {
        try { return doing(); } catch (error) {
            if (!(error instanceof Gravitar.Refused)) console.warn(error);
            this.say(refusal_words(error, sources));
            return undefined;
        }
    }

    // ---- a game begins

    // The layout is that of `own`, which has the settings of a project, else the one that the
    // browser keeps for the image, else `layout`: an example's has a name, a shared game's is the
    // table itself. `sources` are the image's texts, where it has them; `files` those whose lines a
    // refusal shows.
    begin(image, {name = this.name, own, layout, fits, sources, ...options} = {}, files = {}) {
        this.keep_cells();
        const sum = Gravitar.sha256(image), example = this.example_by_sum(sum);
        const chosen = this.chosen_layout(sum, own?.layout, layout ?? example?.layout);
        const ports = Object.fromEntries((chosen.on ?? []).map(it => [it, 255]));
        if (!options.board && !options.cells && !options.tape) options.cells = this.kept_cells(sum);
        const was = this.player.controls;
        this.player.controls = chosen.controls;
        const session = this.attempt(() => this.player.begin(image,
            {...options, ports, timers: $('timers').checked}), files);
        if (!session) { this.player.controls = was; return false; }
        Object.assign(this, {name, sum, layout: chosen, chosen: null, cells: session.cells()});
        this.on = chosen.on ?? [];
        document.title = `${name} · gravitar`;
        this.screen.box = null;
        this.has_drawn = false;
        this.set_fit(own?.fits ?? this.kept_fit(sum, name) ?? fits ?? Boolean(example));
        this.say('');
        this.show_mode('play');
        this.show_keys();
        this.workshop.begun(sources);
        this.player.go(performance.now());
        return true;
    }
    chosen_layout(sum, own, given) {
        return [own, this.shelf.get('layout', sum), given].find(is_layout) ?? LAYOUTS[given] ??
            LAYOUTS['all of IN3 and IN4'];
    }
    // Another image for the play that is under way (replay.js).
    exchange(session) {
        this.player.exchange(session);
        Object.assign(this, {sum: Gravitar.sha256(session.image), cells: session.cells(),
            chosen: null, frames: 0});
    }
    begin_example(name) {
        const it = GRAVITAR_EXAMPLES[name], sources = {
            8: {name: `${name}.s`, bytes: Gravitar.text(it.processor)},
            9: {name: `${name}.v`, bytes: Gravitar.text(it.generator)},
        };
        const image = this.attempt(
            () => this.library.assemble(sources[8].bytes, sources[9].bytes), sources);
        if (image) this.begin(image, {name, layout: it.layout, sources: it});
        $('example').value = name;
    }
    begin_again({replay = false} = {}) {
        const {session} = this.player, options = {own: this.settings};
        if (!session.is_at_power_on && session.start.length) options.board = session.start;
        if (replay) options.tape = session.tape();
        else if (Gravitar.clock_of(session.start) === 0) {
            delete options.board;
            options.cells = session.cells();
        }
        this.begin(this.player.image, options);
    }
    // The example that an image is, whatever its file is called: its keys are known, and all of its
    // small picture is shown.
    example_by_sum(sum) {
        this.examples ??= new Map(Object.values(GRAVITAR_EXAMPLES).map(it => [Gravitar.sha256(
            this.library.assemble(Gravitar.text(it.processor), Gravitar.text(it.generator))), it]));
        return this.examples.get(sum);
    }

    // ---- cells that stay with their image

    kept_cells(sum) {
        const text = this.shelf.get('cells', sum);
        if (typeof text !== 'string' || !/^([0-9a-f]{2}){64}$/.test(text)) return undefined;
        return Uint8Array.from(text.match(/../g), it => parseInt(it, 16));
    }
    forget_cells() {
        this.shelf.put('cells', this.sum, null);
        this.cells = this.player.session.cells();
        this.begin(this.player.image, {own: this.settings});
    }
    keep_cells() {
        const session = this.player.session;
        if (!session || this.player.state === 'looking') return;
        const cells = session.cells();
        if (cells.every((it, i) => it === this.cells[i])) return;
        this.cells = cells;
        this.shelf.put('cells', this.sum,
            Array.from(cells, it => Gravitar.hex(it, 2)).join('').toLowerCase());
    }

    // ---- what is shown

    show_mode(mode) {
        document.body.dataset.mode = mode;
        if (mode === 'log') { this.player.pause(); this.screen.box = this.viewer.box(0); }
        else if (this.viewer.is_playing) this.viewer.is_playing = false;
        $('view-2').hidden = mode !== 'log' || this.viewer.logs.length < 2;
        this.chosen = null;
        this.frames = 0;
    }
    set_fit(fits) {
        this.screen.fits = fits;
        if (this.second) this.second.fits = fits;
        $('fit').setAttribute('aria-pressed', fits);
    }
    // It is kept for the image, for other images of the game's name, and with a project.
    keep_fit() {
        const {fits} = this.screen;
        this.shelf.put('fit', this.sum, fits);
        this.shelf.put('fit', `of ${this.name}`, fits);
        this.workshop.menu.keep_settings();
    }
    kept_fit(sum, name) {
        return this.shelf.get('fit', sum) ?? this.shelf.get('fit', `of ${name}`) ?? undefined;
    }
    show_keys() {
        const cap = it => element('kbd', {}, source_words(it.source));
        const held = this.layout.controls.filter(it => it.bit !== null || !is_analog(it.source));
        const buttons = held.map(it => element('button',
            {type: 'button', dataset: {source: it.source}}, cap(it), it.name));
        if (!buttons.length) buttons.push(element('p', {}, 'This one has no keys.'));
        $('keys').replaceChildren(...buttons);
        const first = this.layout.controls.slice(0, 5);
        $('hint').replaceChildren(...first.map(it => element('span', {}, cap(it), it.name)));
        $('hint').classList.remove('is-gone');
    }
    state_words() {
        const {state} = this.player;
        if (state === 'back') return 'running back: let go to play on from here';
        if (state === 'looking') {
            return this.workshop.is_open ? 'a look back' :
                'a look back · Play goes on from here, forgets what came after · End: to now';
        }
        if (this.player.is_watching()) return 'playing a tape: a key of the game takes over';
        if (state === 'paused') return 'paused';
        const {session, at} = this.player, started = session.kept[0].clock;
        return this.has_drawn || at - started < Gravitar.HZ ? '' : 'nothing has been drawn yet';
    }
    draw() {
        if (this.is_log) return this.draw_log();
        const {player} = this;
        if (!player.session) return;
        const strokes = strokes_seen(player.strokes, player.at);
        this.has_drawn ||= strokes.length > 0;
        if (this.screen.fits) this.screen.widen(player.strokes);
        this.screen.draw(strokes, this.chosen);
        const busy = player.state === 'running' || player.state === 'back';
        this.show_time(player.session.kept[0].clock, player.end, player.at);
        if (!busy || this.frames % 12 === 0) {
            $('board').textContent = this.board_text(player.shown_board());
        }
        if (this.frames % 30 === 0) this.show_machine();
        this.show_play(busy);
        $('state').textContent = this.state_words();
        this.workshop.frame(busy);
    }
    board_text(board) { return Gravitar.board_text(board); }
    show_play(busy) {
        $('play').classList.toggle('is-on', busy);
        $('play').querySelector('span').textContent = busy ? 'Pause' : 'Play';
        for (const it of $('keys').querySelectorAll('button')) {
            it.classList.toggle('is-down', (this.player.values.get(it.dataset.source) ?? 0) > 0.5);
        }
    }
    show_time(start, end, at) {
        const line = $('time');
        if (+line.min !== start) line.min = start;
        if (+line.max !== end) line.max = end;
        if (document.activeElement !== line || +line.value !== at) line.value = at;
        const seconds = (at / Gravitar.HZ).toFixed(3);
        $('clock').textContent = `${seconds} s   clock ${new Intl.NumberFormat('en').format(at)}`;
    }
    show_machine() {
        const {session} = this.player, lines = [`sound: ${this.speaker.words()}`,
            `picture: ${this.screen.kind}, ${(this.screen.shown ?? []).length} strokes`];
        if (session && !this.is_log) {
            const [run, draw] = [this.run_ms ?? 0, this.draw_ms ?? 0].map(it => it.toFixed(1));
            const [inputs, boards] = [session.inputs.length, session.kept.length];
            lines.push(`recorded: ${inputs} inputs, ${boards} boards kept`,
                `run: ${run} ms a frame, draw ${draw} ms`, `image: SHA-256 ${this.sum}`);
        }
        $('machine').textContent = lines.join('\n');
        $('forget-cells').hidden = this.is_log || !this.kept_cells(this.sum);
    }
    draw_log() {
        const {viewer} = this;
        if (!viewer.logs.length) return;
        const alone = $('beam').checked;
        this.screen.draw(viewer.strokes(0, alone), this.chosen);
        if (viewer.logs.length > 1) this.second.draw(viewer.strokes(1, alone));
        this.lanes.draw(viewer.log, Math.floor(viewer.at));
        this.show_time(viewer.start, viewer.end, Math.floor(viewer.at));
        this.show_play(viewer.is_playing);
        $('state').textContent = '';
        if (viewer.is_playing && this.frames % 6) return;
        $('levels').textContent = viewer.levels_text();
        $('lines').replaceChildren(...viewer.lines().flatMap(it => {
            const line = element(it.is_now ? 'b' : it.differs ? 'i' : 'span',
                {dataset: {line: it.line}}, it.text);
            return [line, '\n'];
        }));
        if (document.activeElement !== $('go-clock')) $('go-clock').value = Math.floor(viewer.at);
    }

    // ---- frames

    tick() {
        requestAnimationFrame(() => this.tick());
        const now = performance.now();
        const done = this.attempt(() => {
            this.poll_pads(now);
            if (this.is_log) this.frame_log(now);
            else this.player.frame(now);
            const ran = performance.now();
            this.draw();
            const ended = this.player.take_end();
            if (ended === 'jammed') this.say('The processor stands at an undocumented opcode.');
            if (ended === 'tape') this.say('The tape has ended. Play goes on with keys.', true);
            this.run_ms = 0.95 * (this.run_ms ?? 0) + 0.05 * (ran - now);
            this.draw_ms = 0.95 * (this.draw_ms ?? 0) + 0.05 * (performance.now() - ran);
            return true;
        });
        if (!done) this.player.state = 'paused';
        if (++this.frames % 180 === 0) this.keep_cells();
    }
    frame_log(now) {
        const gap = Math.min(now - (this.last ?? now), 100);
        this.last = now;
        if (!this.viewer.is_playing) return;
        const it = this.viewer.frame(gap);
        this.hear(it.records, it.clock, it.levels);
    }
    poll_pads(now) {
        for (const pad of navigator.getGamepads?.() ?? []) {
            if (!pad) continue;
            pad.buttons.forEach((it, i) => this.move_pad(`Pad button ${i}`, +it.pressed, now));
            pad.axes.forEach((it, i) => {
                this.move_pad(`Pad axis ${i} +`, +(it > 0.5), now);
                this.move_pad(`Pad axis ${i} -`, +(it < -0.5), now);
                this.move_pad(`Pad axis ${i}`, Math.round(100 * (it + 1)) / 200, now);
            });
        }
    }
    move_pad(source, value, time) {
        this.pads ??= new Map();
        const was = this.pads.get(source) ?? (/\d$/.test(source) && /axis/.test(source) ? 0.5 : 0);
        if (was === value) return;
        this.pads.set(source, value);
        if (value === 1) this.dialog.pad(source);
        this.player.move(source, value, time);
    }
    get speed() { return SPEEDS[$('speed').selectedIndex]; }

    // ---- what a person does

    play_or_pause() {
        const now = performance.now();
        if (this.is_log) {
            const {viewer} = this;
            if (!viewer.logs.length) return;
            if (!viewer.is_playing && viewer.at >= viewer.end) viewer.at = viewer.start;
            viewer.is_playing = !viewer.is_playing;
            this.last = now;
            this.speaker.clear();
        } else if (this.player.state === 'running') this.player.pause();
        else this.attempt(() => this.player.go(now));
    }
    back(is_held) {
        if (!this.player.session || this.is_log) return;
        if (is_held) this.attempt(() => this.player.back(performance.now()));
        else if (this.player.state === 'back') this.player.go(performance.now());
        $('back').classList.toggle('is-on', is_held);
    }
    step() {
        if (this.is_log) { this.viewer.is_playing = false; this.viewer.go_record(1); return; }
        this.attempt(() => this.player.step());
    }
    go_time(clock) {
        if (this.is_log) { this.viewer.is_playing = false; this.viewer.go(clock); return; }
        this.attempt(() => this.player.look(clock));
    }
    change_speed(by) {
        const select = $('speed');
        select.selectedIndex = Math.max(0, Math.min(SPEEDS.length - 1, select.selectedIndex + by));
        this.set_speed();
    }
    set_speed() {
        this.player.speed = this.viewer.speed = this.speed;
        this.speaker.clear();
    }
    async full() {
        const is_full = !document.body.classList.contains('is-full');
        document.body.classList.toggle('is-full', is_full);
        try {
            if (is_full) await document.documentElement.requestFullscreen?.();
            else if (document.fullscreenElement) await document.exitFullscreen();
        } catch { /* the page has the whole window all the same */ }
    }
    choose(stroke) {
        this.chosen = stroke;
        if (!stroke) {
            $('stroke').textContent = 'Click a stroke to see its line of the log.';
            return;
        }
        const s = stroke, place = `${s.x0} ${s.y0} ${s.x1} ${s.y1}`;
        const line = `S ${s.clock} ${place} ${s.colour} ${s.intensity}`;
        const where = s.line === undefined ? '' : `line ${s.line + 1}\n`;
        const ink = ['black', 'blue', 'green', 'cyan', 'red', 'magenta', 'yellow',
            'white'][s.colour];
        $('stroke').textContent = `${where}${line}\n${ink}, intensity ${s.intensity} of 15, ` +
            `${(s.clock / Gravitar.HZ).toFixed(4)} s`;
        if (this.is_log && !this.viewer.is_playing && s.line !== undefined) this.viewer.go(s.clock);
        if (!this.is_log) this.workshop.words.choose(stroke);
    }
    // The stroke before or after the chosen one, of those that are shown.
    choose_next(way) {
        const shown = [...this.screen.shown ?? []].sort((a, b) => a.clock - b.clock);
        if (!shown.length) return;
        if (!this.is_log && this.player.state === 'running') this.player.pause();
        const at = shown.findIndex(it => this.chosen && stroke_key(it) === stroke_key(this.chosen));
        this.choose(shown[(at + way + (at < 0 && way < 0 ? 1 : 0) + shown.length) % shown.length]);
    }
}
