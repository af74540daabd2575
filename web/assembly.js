// From two sources to the play: they are assembled at each pause in typing, and the play goes on
// with the new image.
'use strict';

const PAUSE = 300;                              // milliseconds without a key, then it is assembled
const SLICE = 10;                               // milliseconds of a frame for long work

const next_frame = () => new Promise(done => setTimeout(done));

class Assembly {
    constructor(workshop) {
        Object.assign(this, {workshop, page: workshop.page, build: null, has_sources: false,
            is_stale: false, kept: null, resume: null, edition: 0});
        $('keep-board').onclick = () => this.keep_board();
        $('begin-at').onchange = () => this.warn_board();
    }
    get view() { return this.workshop.view; }
    get is_replaying() { return this.resume !== null; }
    is_image_of_build() {
        const image = this.build?.image;
        return Boolean(image) && image.every((it, i) => it === this.page.player.image[i]);
    }

    // ---- sources

    // A game begins with its sources, or without any: then there are addresses alone.
    begun(sources) {
        Object.assign(this, {kept: null, resume: null});
        this.edition++;
        $('begin-at').value = 'start';
        $('begin-at').options[1].disabled = true;
        if (sources) this.load(sources);
        else if (!this.is_image_of_build()) this.load({processor: '', generator: ''});
    }
    load(sources) {
        clearTimeout(this.waiting);
        if (this.is_replaying) this.go_on(this.page.player);
        this.view.set(sources);
        this.has_sources = sources.processor !== '' || sources.generator !== '';
        const build = this.has_sources ? new Build(this.page.library, sources) : null;
        this.build = build?.is_good ? build : null;
        this.is_stale = false;
        this.edition++;
        this.view.show_build(this.build);
        this.workshop.menu.loaded();
        if (build && !build.is_good) this.find_problems(sources);
    }
    changed() {
        this.edition++;
        this.has_sources = this.is_stale = true;
        clearTimeout(this.waiting);
        this.waiting = setTimeout(() => this.assemble(), PAUSE);
        this.view.say('…');
    }
    assemble() {
        clearTimeout(this.waiting);
        const {sources} = this.view, build = new Build(this.page.library, sources);
        this.workshop.menu.keep();
        if (!build.is_good) {
            // A play that stood still for the image before goes on as it was.
            if (this.is_replaying) this.go_on(this.page.player);
            return this.find_problems(sources);
        }
        this.build = build;
        this.is_stale = false;
        this.workshop.stops.breaks();
        this.workshop.tools.profile.forget();
        this.view.show_build(build);
        return this.exchange(build.image);
    }
    async find_problems(sources) {
        const {edition} = this, all = [];
        for (const part of PARTS) {
            for (const it of problems_of(this.page.library, part, sources[part])) {
                all.push(it);
                this.view.show_problems(all);
                await next_frame();
                if (edition !== this.edition) return;
            }
        }
    }

    // ---- the play with another image

    // The play so far with another image; the play before it stands still meanwhile.
    async exchange(image) {
        const {page, workshop} = this, {player} = page, edition = ++this.edition;
        if (image.every((it, i) => it === player.image[i])) {
            workshop.refresh();
            if (this.is_replaying) this.go_on(player);
            return;
        }
        this.resume ??= {state: player.state, at: player.at};
        const board = $('begin-at').value === 'board' ? this.kept : null;
        const replay = new Replay(page.library, player.session, image, board);
        player.pause();
        while (!replay.run(SLICE)) {
            this.view.say(`plays again: ${Math.round(100 * replay.share)} %`);
            await next_frame();
            if (edition !== this.edition) return;
        }
        workshop.moves.cancel();
        page.exchange(replay.session);
        this.go_on(replay);
        this.view.show_build(this.build);
    }
    go_on({session}) {
        const {page} = this, {player} = page, {state, at} = this.resume;
        this.resume = null;
        if (session.jammed) page.say('The new image jams in this play: the processor stands at ' +
            'an undocumented opcode.');
        else if (state === 'looking') player.look(at);
        else if (state === 'running' || state === 'back') player.go(performance.now());
        this.workshop.stays();
    }
    keep_board() {
        const {player} = this.page;
        this.kept = player.shown_board().slice();
        const option = $('begin-at').options[1];
        option.disabled = false;
        option.textContent = `board, ${(player.at / Gravitar.HZ).toFixed(2)} s`;
        $('begin-at').value = 'board';
        this.warn_board();
    }
    warn_board() {
        if ($('begin-at').value !== 'board') return;
        this.page.say('Changes go on from this board. A board and another image may not fit: its ' +
            'RAM and its program counter are those of the image before.', true);
    }
}
