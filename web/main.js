// Wires the page, and starts it with the first example.
'use strict';

// Where a key is typed into something, it isn't the game's.
function is_typing(target) {
    return /^(INPUT|SELECT|TEXTAREA)$/.test(target.tagName) || Boolean(target.closest?.('dialog'));
}
// Keys that a focused button or heading takes for itself.
function is_pressed_by(target, code) {
    return /^(BUTTON|SUMMARY)$/.test(target.tagName) && /^(Space|Enter)$/.test(code);
}

class Wires {
    constructor(page) {
        this.page = page;
        this.desk = page.desk = new Desk(page);
        page.dialog = new KeysDialog($('layout'), page.shelf, it => this.change_layout(it));
        this.commands = {
            KeyP: () => page.play_or_pause(), Period: () => page.step(), KeyF: () => page.full(),
            Minus: () => page.change_speed(-1), Equal: () => page.change_speed(1),
            Home: () => page.go_time(-Infinity), End: () => page.go_time(Infinity),
            BracketLeft: () => page.choose_next(-1), BracketRight: () => page.choose_next(1),
            Comma: () => page.is_log && page.viewer.go_record(-1),
            Escape: () => this.escape(),
            KeyW: () => page.workshop.toggle(),
        };
        this.fill();
        this.buttons();
        this.time();
        this.keys();
        this.pointer();
        this.files();
    }
    fill() {
        for (const [name, it] of Object.entries(GRAVITAR_EXAMPLES)) {
            $('example').add(new Option(it.title, name));
        }
        $('example').append(
            element('option', {value: '', textContent: 'your own', hidden: true}));
        const words = it => it < 1 ? `1/${1 / it}` : it === 1 ? 'full' : `${it} ×`;
        $('speed').append(...SPEEDS.map(it => new Option(`${words(it)} speed`, it)));
        $('speed').value = 1;
    }
    buttons() {
        const {page, desk} = this, click = (id, what) => { $(id).onclick = what; };
        click('play', () => page.play_or_pause());
        click('step', () => page.step());
        click('next', () => page.step());
        click('previous', () => { page.viewer.is_playing = false; page.viewer.go_record(-1); });
        click('again', () => page.begin_again());
        click('replay', () => page.begin_again({replay: true}));
        click('full', () => page.full());
        click('fit', () => {
            page.set_fit(!page.screen.fits);
            page.screen.box = page.is_log ? page.viewer.box(0) : box_around(page.player.strokes);
            if (!page.is_log) page.keep_fit();
        });
        click('open', () => $('files').click());
        click('forget-cells', () => page.forget_cells());
        click('workshop-button', () => page.workshop.toggle());
        click('leave-log', () => { page.screen.box = null; page.show_mode('play'); });
        click('go-difference', () => page.go_time(page.viewer.difference.clock));
        click('change-keys', () => {
            page.player.pause();
            page.dialog.open(page.layout, page.on);
        });
        for (const what of ['tape', 'log', 'board', 'cells', 'picture', 'sound', 'image']) {
            click(`save-${what}`, () => {
                $('save').open = false;
                page.attempt(() => desk[`save_${what}`]());
            });
        }
        // A click with the pointer leaves the keys to the game; one by the keyboard stays where it
        // is.
        document.addEventListener('click', it => {
            if (it.detail && it.target.closest('button, summary') &&
                !it.target.closest('dialog, #workshop, aside')) $('canvas').focus();
            for (const menu of document.querySelectorAll('details.menu')) {
                if (!menu.contains(it.target)) menu.open = false;
            }
        });
    }
    time() {
        const {page} = this, back = to => $('canvas').focus(to);
        $('example').onchange = () => { page.begin_example($('example').value); back(); };
        $('speed').onchange = () => { page.set_speed(); back(); };
        $('volume').oninput = () => page.speaker.set_volume(+$('volume').value);
        $('time').oninput = () => page.go_time(+$('time').value);
        $('time').onpointerup = $('volume').onpointerup = () => back();
        $('go-clock').onchange = () => page.go_time(Number($('go-clock').value) || 0);
        $('timers').onchange = () => { page.begin_again(); back(); };
        $('lines').onclick = it => {
            const line = it.target.dataset.line;
            if (line !== undefined) page.go_time(page.viewer.log.clock[line]);
        };
        $('lanes').onclick = it => this.click_lanes(it);
        const hold = is_held => it => { it.preventDefault(); page.back(is_held); };
        $('back').onpointerdown = hold(true);
        $('back').onpointerup = $('back').onpointercancel = $('back').onpointerleave = hold(false);
        $('back').onkeydown = it => { if (it.code === 'Space' && !it.repeat) hold(true)(it); };
        $('back').onkeyup = it => { if (it.code === 'Space') hold(false)(it); };
        $('back').oncontextmenu = it => it.preventDefault();
    }
    click_lanes(event) {
        const {viewer} = this.page, wide = $('lanes').clientWidth - LANE_GUTTER;
        const share = (event.offsetX - LANE_GUTTER) / wide, whole = event.offsetY < 50;
        this.page.go_time(whole ? viewer.start + share * (viewer.end - viewer.start) :
            viewer.at + (share - 0.5) * LANE_SPAN);
    }
    change_layout(layout) {
        const {page} = this, {player} = page;
        const ports = new Set([...page.on, ...layout.on]);
        for (const port of ports) {
            const byte = layout.on.includes(port) ? 255 : 0;
            if (page.on.includes(port) !== layout.on.includes(port)) player.session.set(port, byte);
        }
        Object.assign(page, {layout, on: layout.on});
        player.controls = layout.controls;
        page.shelf.put('layout', page.sum, layout);
        page.workshop.menu.keep_settings();
        page.show_keys();
    }
    escape() {
        const {page} = this;
        if (document.body.classList.contains('is-full')) page.full();
        page.choose(null);
        page.say('');
        $('save').open = false;
    }

    // ---- keys

    keys() {
        const {page} = this;
        addEventListener('keydown', it => this.key(it, 1));
        addEventListener('keyup', it => this.key(it, 0));
        addEventListener('blur', () => {
            page.player.release_all(performance.now());
            if (page.player.state === 'back') page.back(false);
        });
        document.addEventListener('visibilitychange', () => {
            if (!document.hidden) return;
            page.player.pause();
            page.viewer.is_playing = false;
            page.keep_cells();
        });
        addEventListener('pagehide', () => page.keep_cells());
        document.addEventListener('fullscreenchange', () => {
            if (!document.fullscreenElement) document.body.classList.remove('is-full');
        });
    }
    key(event, value) {
        const {page} = this, {code, target} = event;
        if (value) page.speaker.start();
        if (event.ctrlKey && !code.startsWith('Control') || event.altKey || event.metaKey) return;
        if (value && page.workshop.key(event)) { event.preventDefault(); return; }
        if (value && (is_typing(target) || is_pressed_by(target, code))) return;
        if (!page.is_log && page.player.controls.some(it => it.source === code)) {
            if (!event.repeat) page.player.move(code, value, event.timeStamp);
            $('hint').classList.add('is-gone');
            event.preventDefault();
        } else if (code === 'Backspace') {
            if (!event.repeat) page.back(value === 1);
            event.preventDefault();
        } else if (value && this.commands[code]) {
            this.commands[code]();
            event.preventDefault();
        }
    }

    // ---- the pointer

    pointer() {
        const {page} = this, canvas = $('canvas'), {player} = page;
        for (const it of ['pointerdown', 'pointerup']) {
            addEventListener(it, () => page.speaker.start(), true);
        }
        canvas.onpointerdown = it => {
            canvas.focus();
            if (!page.is_log && player.move('Mouse button', 1, it.timeStamp)) return;
            page.choose(page.screen.nearest(it));
        };
        addEventListener('pointerup', it => player.move('Mouse button', 0, it.timeStamp));
        canvas.onpointermove = it => {
            if (page.is_log) return;
            player.move('Mouse X', it.offsetX / canvas.clientWidth, it.timeStamp);
            player.move('Mouse Y', 1 - it.offsetY / canvas.clientHeight, it.timeStamp);
        };
        $('canvas-2').onpointerdown = it => page.choose(page.second.nearest(it));
        const touch = value => it => {
            const key = it.target.closest('button');
            if (!key) return;
            if (value && it.pointerId !== undefined) key.setPointerCapture?.(it.pointerId);
            player.move(key.dataset.source, value, it.timeStamp);
        };
        $('keys').onpointerdown = touch(1);
        $('keys').onpointerup = $('keys').onpointercancel = touch(0);
        $('keys').oncontextmenu = it => it.preventDefault();
        $('keys').onkeydown = it => { if (/^(Space|Enter)$/.test(it.code) &&
            !it.repeat) touch(1)(it); };
        $('keys').onkeyup = it => { if (/^(Space|Enter)$/.test(it.code)) touch(0)(it); };
    }

    // ---- files

    files() {
        const {desk} = this;
        let depth = 0;
        const show = by => { depth = Math.max(0, depth + by); $('drop').hidden = depth === 0; };
        $('files').onchange = async () => {
            await desk.open($('files').files);
            $('files').value = '';
        };
        addEventListener('dragenter', it => { it.preventDefault(); show(1); });
        addEventListener('dragleave', () => show(-1));
        addEventListener('dragover', it => it.preventDefault());
        addEventListener('drop', it => {
            it.preventDefault();
            show(-depth);
            desk.open(it.dataTransfer.files);
        });
    }
}

// The game that `tools/web.sh --single` puts into the page.
function begin_game(page, {name, image, tape, processor, generator, layout, fits}) {
    const options = {name, layout, fits, tape: tape && Gravitar.bytes_of_base64(tape)};
    if (processor !== undefined) options.sources = {processor, generator};
    if (page.begin(Gravitar.bytes_of_base64(image), options)) $('example').value = '';
}

async function main() {
    page_text.own = own_text();
    const page = new Page(await Gravitar.Library.load(GRAVITAR_MODULE));
    window.page = page;                         // for whoever opens the console, and for the test
    new Wires(page);
    if (globalThis.GRAVITAR_GAME) begin_game(page, GRAVITAR_GAME);
    if (!page.player.session) page.begin_example(Object.keys(GRAVITAR_EXAMPLES)[0]);
    $('canvas').focus();
    page.tick();
}
main().catch(error => {
    $('message').textContent = `This browser can't play: ${error.message}`;
    $('message').hidden = false;
});
