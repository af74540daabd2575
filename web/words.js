// From a stroke of the picture to the word that drew it and to the line of that word, and back.
'use strict';

const WORD_BACK = 2 * Gravitar.HZ;              // clocks that the search for a word's writer goes

class StrokeWords {
    constructor(workshop) { Object.assign(this, {workshop, page: workshop.page}); }
    get view() { return this.workshop.view; }
    // The word that drew a stroke, and its line.
    choose(stroke) {
        const {workshop} = this;
        if (!workshop.is_open || !stroke) return;
        const {session} = this.page.player, board = workshop.debug.board(stroke.clock);
        const word = word_of_stroke(board, session.image, stroke);
        if (!word) { $('word').textContent = 'the generator has left this word'; return; }
        this.show(word.address, stroke.clock);
        if (word.address < 0x2800) this.find_writer(word, stroke.clock);
        else this.view.mark(word.address);
    }
    show(address, clock) {
        const from = Math.max(0x2000, address - 4), {debug, build} = this.workshop;
        const lines = debug.shows(clock, `vdis ${address_words(from)} 4`).split('\n');
        const entry = build?.listing?.at(address);
        const rows = lines.filter(Boolean).map(it => {
            const is_it = it.startsWith(address_words(address));
            return element(is_it ? 'b' : 'span', {}, `${is_it ? '→' : ' '} ${it}\n`);
        });
        const where = address < 0x2800 ? 'in the vector RAM' :
            entry ? `line ${entry.line} of the generator’s source` : 'in the vector ROM';
        $('word').replaceChildren(element('i', {}, `${where}\n`), ...rows);
    }
    // The instruction that wrote a word of the vector RAM: of its bytes, the one written last.
    async find_writer({address, words}, clock) {
        const {moves} = this.workshop;
        let last = null;
        for (let i = 0; i < 2 * words; i++) {
            const it = await moves.search(address + i, clock, {most: WORD_BACK});
            if (it === undefined) return;
            if (it && (!last || it.clock > last.clock)) last = it;
        }
        moves.show_found('');
        $('word').append(element('i', {}, last ? `written last by ${moves.writer_words(last)}` :
            'not written for two seconds'));
        if (last) this.view.mark(last.pc);
    }
    // A byte leads to who wrote it, and a word of the ROM to its line.
    reveal(address) {
        if (is_watchable(address)) return this.workshop.moves.who(address);
        return this.view.mark(address);
    }
    // The cursor in the generator's source chooses a stroke that its line drew.
    cursor(part, line) {
        const {page} = this, entry = this.workshop.build?.listing?.on_line(part, line);
        if (part !== 'generator' || !entry || page.player.state === 'running') return;
        const drawn = words_of_strokes(page.player.session, page.screen.shown ?? [])
            .find(it => it.address === entry.address);
        page.chosen = drawn?.stroke ?? null;
        if (drawn) this.show(entry.address, drawn.stroke.clock);
    }
}
