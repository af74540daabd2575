// The workshop: two sources beside the picture, and tools that show the board of the clock that the
// page shows. Its parts are in files of their own:
//   source_view.js    the sources on the screen, their marks and refused lines
//   assembly.js       from the sources to the play
//   project_menu.js   projects, and the files that they become
//   stops.js          breaks and watches
//   moves.js          the debugger's buttons
//   words.js          from strokes to lines, and back
//   tools.js          what the tabs on the right show
// What they know of the board comes from commands of the program.
'use strict';

const TOOLS_OF_RUNNING = ['debug', 'memory'];   // those that are shown while the game runs

class Workshop {
    constructor(page) {
        Object.assign(this, {page, shown_at: null, revealed_at: null});
        this.menu = new ProjectMenu(this);
        this.stops = new Stops(this);
        this.moves = new Moves(this);
        this.words = new StrokeWords(this);
        this.assembly = new Assembly(this);
        this.view = new SourceView(this);
        this.tools = {debug: new DebugTool(this), memory: new MemoryTool(this),
            profile: new ProfileTool(this), pictures: new PicturesTool(this)};
        this.wire();
        this.view.show_part('processor');
        this.show_tool('debug');
        this.show_pane('source');
    }
    get is_open() { return document.body.classList.contains('has-workshop'); }
    get build() { return this.assembly.build; }
    get clock() { return this.page.player.at; }
    get debug() {
        const {session} = this.page.player;
        if (this.debugger_of?.session !== session) {
            this.debugger_of = new Debugger(this.page.library, session);
        }
        return this.debugger_of;
    }
    wire() {
        for (const it of document.querySelectorAll('#tool-tabs [data-tool]')) {
            it.onclick = () => this.show_tool(it.dataset.tool);
        }
        for (const it of document.querySelectorAll('#panes [data-pane]')) {
            it.onclick = () => this.show_pane(it.dataset.pane);
        }
    }
    // Keys that are the debugger's while the workshop is open, in a source too.
    key({code, shiftKey}) {
        const step = shiftKey ? 'back_step' : 'step';
        const what = {F7: step, F8: 'over', F9: 'break', F10: 'go'}[code];
        if (!what || !this.is_open || this.page.is_log) return false;
        this.moves.act(what);
        return true;
    }
    toggle(is_open = !this.is_open) {
        document.body.classList.toggle('has-workshop', is_open);
        $('workshop-button').setAttribute('aria-pressed', is_open);
        this.view.render();
        this.refresh();
        if (is_open) this.menu.list();
    }
    show_tool(tool) {
        this.tool = tool;
        document.body.dataset.tool = tool;
        for (const it of document.querySelectorAll('#tool-tabs [data-tool]')) {
            it.setAttribute('aria-pressed', it.dataset.tool === tool);
        }
        this.refresh();
    }
    show_pane(pane) {
        document.body.dataset.pane = pane;
        for (const it of document.querySelectorAll('#panes [data-pane]')) {
            it.setAttribute('aria-pressed', it.dataset.pane === pane);
        }
        this.view.render();
    }
    // A game begins.
    begun(sources) {
        this.moves.cancel();
        this.stops.begun();
        this.tools.profile.forget();
        this.moves.show_found('');
        this.assembly.begun(sources);
        this.refresh();
    }

    // ---- frames

    refresh() { this.shown_at = null; }
    // The board is another one at the same place of the play: the source stays where it is.
    stays() {
        this.refresh();
        this.revealed_at = this.clock;
    }
    // What the page shows at its next frame; while the game runs, five times a second.
    frame(is_busy) {
        if (!this.is_open || !this.page.player.session || this.assembly.is_replaying) return;
        if (is_busy) this.frame_of_running(); else this.frame_of_pause();
    }
    frame_of_running() {
        this.view.show_pc(null);
        this.shown_at = this.revealed_at = null;
        if (this.page.frames % 12 || !TOOLS_OF_RUNNING.includes(this.tool)) return;
        this.tools[this.tool].show(this.clock);
    }
    frame_of_pause() {
        const at = this.clock;
        if (this.shown_at === at) return;
        const pc = this.assembly.is_stale ? 0 : this.debug.place(at).pc;
        this.view.show_pc(pc, {reveals: this.revealed_at !== at});
        this.shown_at = this.revealed_at = at;
        this.tools[this.tool]?.show(at);
    }
}
