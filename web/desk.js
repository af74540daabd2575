// Opening and saving: files that a person drops or chooses, and those that the page hands out.
'use strict';

class Desk {
    constructor(page) { this.page = page; }
    get player() { return this.page.player; }

    // ---- opening

    async open(list) {
        const page = this.page;
        const files = await Promise.all(Array.from(list, async it =>
            ({name: it.name, bytes: new Uint8Array(await it.arrayBuffer())})));
        if (!files.length) return;
        const sorted = sort_files(files);
        if (sorted.unknown.length) {
            page.say(sorted.unknown.map(it => unknown_file(it.name, it.bytes)).join('\n'));
            return;
        }
        const sources = {8: sorted.processor, 9: sorted.generator};
        const is_open = sorted.logs.length ? await this.open_logs(sorted.logs) :
            page.attempt(() => this.open_game(sorted), sources);
        if (is_open && sorted.left.length) {
            page.say(`${sorted.left.map(it => it.name).join(', ')}: not opened. At a time there ` +
                'are one log or two, or one image or two sources, one tape, one board.');
        }
    }
    // Whether it was opened.
    open_game({processor, generator, image, board, cells, tape}) {
        const page = this.page;
        if (Boolean(processor) !== Boolean(generator)) {
            const [one, other] = processor ? [processor, "the generator's source (.v)"] :
                [generator, "the processor's source (.s)"];
            page.say(`${one.name}: ${other} is missing. Open both together.`);
            return false;
        }
        const opened = processor && opened_sources(stem_of(processor.name),
            {processor: Gravitar.string_of(processor.bytes),
                generator: Gravitar.string_of(generator.bytes)});
        if (opened && page.workshop.is_open) {
            page.workshop.menu.open_sources(opened.name, opened.sources);
            return true;
        }
        const made = processor && page.library.assemble(processor.bytes, generator.bytes);
        const bytes = made ?? image?.bytes ?? this.player.image, named = processor ?? image;
        if (!bytes) return false;
        const name = opened?.name ?? (named ? stem_of(named.name) : page.name);
        const options = {name, board: board?.bytes, cells: cells?.bytes, tape: tape?.bytes,
            sources: opened?.sources};
        if (!page.begin(bytes, options, {4: tape})) return false;
        if (named) $('example').value = '';
        const what = [processor ? 'sources' : image, board, cells, tape].filter(Boolean)
            .map(it => it.name ?? `${processor.name} and ${generator.name}`);
        page.say(`${what.join(', ')}: opened`, true);
        return true;
    }
    async open_logs(files) {
        const page = this.page;
        if (!page.is_log || files.length > 1) page.viewer.clear();
        for (const {name, bytes} of files) {
            const log = await this.read_log(name, bytes);
            if (!log) return false;
            page.viewer.add(name, log);
            this.show_log();
        }
        return true;
    }
    // A part at a time, so that the page stays alive while 60 MB are read.
    async read_log(name, bytes) {
        const page = this.page;
        try {
            const reader = new LogReader(bytes);
            while (!reader.read(80)) {
                page.say(`${name}: ${Math.round(100 * reader.at / bytes.length)} % read`, true);
                await new Promise(done => setTimeout(done));
            }
            page.say('');
            if (reader.log.count) return reader.log;
            throw new LogError('it has no lines');
        } catch (error) {
            page.say(`${name}: ${error.message}`);
            return null;
        }
    }
    show_log() {
        const page = this.page, {viewer} = page;
        page.show_mode('log');
        if (viewer.logs.length > 1) {
            page.second ??= new Screen($('canvas-2'));
            page.second.fits = page.screen.fits;
            page.second.box = viewer.box(1);
        }
        $('log-words').textContent = viewer.words();
        $('difference').textContent = viewer.difference_words();
        $('difference').hidden = viewer.logs.length < 2;
        $('go-difference').hidden = !viewer.difference;
        page.speaker.clear();
    }

    // ---- saving

    get name() { return plain_name(this.page.name); }

    // The tape, and the board where the run begins if that isn't power-on; the command over them.
    save_tape() {
        const {session} = this.player, name = this.name;
        for (const it of session.files(name)) {
            if (!it.name.endsWith('.img')) download(it.name, [it.bytes]);
        }
        const begins = session.is_at_power_on ? '' :
            'This run begins at a board (saved, or with kept cells), which is saved too.\n';
        this.page.say(`${begins}${session.command(name)}`, true);
    }
    save_log() { download(`${this.name}.log`, [...this.player.session.log()]); }
    save_board() { download(`${this.name}-${Gravitar.clock_of(this.board)}.board`, [this.board]); }
    get board() { return this.player.shown_board(); }
    save_cells() { download(`${this.name}.cells`, [Gravitar.cells_of(this.board)]); }
    save_image() { download(`${this.name}.img`, [this.player.image]); }
    save_picture() {
        const {screen, is_log, viewer} = this.page;
        const shown = [...screen.shown ?? []].sort((a, b) => a.clock - b.clock);
        const name = is_log ? stem_of(viewer.logs[0].name) : this.name;
        const clock = is_log ? Math.floor(viewer.at) : this.player.at;
        download(`${name}-${clock}.svg`, [svg_of(shown, screen.range())]);
    }
    // The whole run, a piece at a time.
    async save_sound() {
        const {session} = this.player, rate = 48000, page = this.page;
        const mixer = new Gravitar.Mixer(rate, session.kept[0].clock,
            Gravitar.levels_of(session.start));
        const parts = [], end = session.clock;
        let until = Date.now() + 80;
        for (const {records, clock} of session.pieces(session.kept[0].clock, end)) {
            parts.push(mixer.mix(records, clock));
            if (Date.now() < until) continue;
            page.say(`sound: ${Math.round(100 * clock / end)} %`, true);
            await new Promise(done => setTimeout(done));
            until = Date.now() + 80;
        }
        download(`${this.name}.wav`, [wav_of(parts, rate)]);
        page.say('');
    }
}
