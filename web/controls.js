// Keys, buttons and pots: which bit of which port each one moves, and where that is kept. Nothing
// here needs a browser, but localStorage is used where there is one.
'use strict';

if (typeof require === 'function') globalThis.Gravitar ??= require('./core.js');

const POT_MOST = 228;                           // where a pot's count ends (docs/BOARD.md)

// A control: a name, its source, a port, and a bit or, for a whole byte of a pot, null. A source is
// a key's `code`, or `Mouse X`, `Mouse Y`, `Pad button N`, `Pad axis N +` or `-`, `Pad axis N`.
// `sets`: what the bit is while the button is down. `stays`: a press turns it over, as a switch.
function control(name, source, target, {sets = 0, stays = false} = {}) {
    const [port, bit] = target.split('.');
    return {name, source, port, bit: bit === undefined ? null : +bit, sets, stays};
}

const NO_SWITCHES = Object.freeze({});
const GRAVITAR_AND_WIDOW = [
    control('coin 1', 'Digit5', 'IN0.1'), control('coin 2', 'Digit6', 'IN0.0'),
    control('one player', 'Digit1', 'IN4.5'), control('two players', 'Digit2', 'IN4.6'),
    control('service mode', 'F2', 'IN0.4', {stays: true}),
        control('diagnostic step', 'F4', 'IN0.5'),
];
// The switches of docs/ROMS.md: a pot that is FF sets its bit of ALLPOT.
const LAYOUTS = {
    'ship': {
        controls: [control('turn left', 'ArrowLeft', 'IN3.0'),
                   control('turn right', 'ArrowRight', 'IN3.1'),
                   control('engine', 'ArrowUp', 'IN3.2')],
        switches: NO_SWITCHES,
    },
    'one button': {controls: [control('button', 'Space', 'IN3.0')], switches: NO_SWITCHES},
    'no keys': {controls: [], switches: NO_SWITCHES},
    'Gravitar': {
        controls: [control('left', 'ArrowLeft', 'IN3.3'), control('right', 'ArrowRight', 'IN3.2'),
                   control('button 1', 'Space', 'IN3.1'), control('button 2', 'ArrowUp', 'IN3.4'),
                   control('button 3', 'ArrowDown', 'IN3.0'), ...GRAVITAR_AND_WIDOW],
        switches: {P2: 'lives, 1 more', P3: 'lives, 2 more', P4: 'hard', P6: 'bonus life',
                   P7: 'bonus life', Q0: 'coinage', Q1: 'coinage: free play', Q2: 'coin B',
                   Q3: 'coin B', Q4: 'coin A', Q5: 'bonus coins', Q6: 'bonus coins',
                   Q7: 'bonus coins'},
    },
    'Black Widow': {
        controls: [control('move left', 'KeyA', 'IN3.1'), control('move right', 'KeyD', 'IN3.0'),
                   control('move up', 'KeyW', 'IN3.3'), control('move down', 'KeyS', 'IN3.2'),
                   control('fire left', 'ArrowLeft', 'IN4.1'),
                   control('fire right', 'ArrowRight', 'IN4.0'),
                   control('fire up', 'ArrowUp', 'IN4.3'),
                   control('fire down', 'ArrowDown', 'IN4.2'), ...GRAVITAR_AND_WIDOW],
        switches: {P0: 'coinage', P1: 'coinage: free play', P2: 'coin B', P3: 'coin B',
            P4: 'coin A',
                   P5: 'bonus coins', P6: 'bonus coins', P7: 'bonus coins', Q0: 'max start',
                   Q1: 'max start', Q2: 'lives', Q3: 'lives', Q4: 'difficulty', Q5: 'difficulty',
                   Q6: 'bonus life', Q7: 'bonus life'},
    },
    'all of IN3 and IN4': {
        controls: [...'01234567'].flatMap(bit => [
            control(`IN3 bit ${bit}`, 'KeyA KeyS KeyD KeyF KeyG KeyH KeyJ KeyK'.split(' ')[bit],
                `IN3.${bit}`),
            control(`IN4 bit ${bit}`, `Digit${+bit + 1}`, `IN4.${bit}`)]),
        switches: NO_SWITCHES,
    },
    'pots 0 and 1 by the mouse': {
        controls: [control('pot 0', 'Mouse X', 'P0'), control('pot 1', 'Mouse Y', 'P1'),
                   control('button', 'Mouse button', 'IN3.0')],
        switches: NO_SWITCHES,
    },
};

// Whether a source has a place between 0 and 1, and not only up and down.
function is_analog(source) { return /^Mouse [XY]$|^Pad axis \d$/.test(source); }

// What a port's byte has to be: the byte before it, the controls of the image, and how far down
// each source is, 0 to 1. A bit that several controls move is down where one of them is. What stays
// is turned over by the press itself, `pressed` being the source of it.
function byte_for(port, byte, controls, values, pressed = null) {
    const mine = controls.filter(it => it.port === port);
    const is_down = it => (values.get(it.source) ?? 0) > 0.5;
    for (const it of mine) {
        if (it.bit === null) {
            const value = values.get(it.source);
            if (!is_analog(it.source)) byte = is_down(it) ? 255 : 0;
            else if (value !== undefined) byte = Math.round(POT_MOST * value);
        } else if (it.stays) {
            if (it.source === pressed) byte ^= 1 << it.bit;
        } else {
            const down = mine.some(other => other.bit === it.bit && !other.stays && is_down(other));
            byte = down === Boolean(it.sets) ? byte | 1 << it.bit : byte & ~(1 << it.bit);
        }
    }
    return port === 'IN0' ? byte & 63 : byte & 255;
}

// What a source is called on the screen.
const SOURCE_WORDS = {ArrowLeft: '←', ArrowRight: '→', ArrowUp: '↑', ArrowDown: '↓', Space: 'space',
    ShiftLeft: 'left shift', ShiftRight: 'right shift', ControlLeft: 'left ctrl',
    ControlRight: 'right ctrl', Enter: 'enter', Comma: ',', Period: '.', Slash: '/', Minus: '-',
    Semicolon: ';', Quote: "'", BracketLeft: '[', BracketRight: ']', Mouse: 'mouse'};
function source_words(source) {
    if (!source) return 'none';
    return SOURCE_WORDS[source] ??
        source.replace(/^Key(.)$/, '$1').replace(/^Digit(.)$/, '$1').replace(/^Numpad/, 'pad ')
            .replace(/^(Mouse|Pad)\b/, it => it.toLowerCase());
}

// Whether something read from storage is a list of controls and switches.
function is_layout(it) {
    const is_control = c => typeof c.name === 'string' && typeof c.source === 'string' &&
        Gravitar.PORTS.includes(c.port) &&
            (c.bit === null || [0, 1, 2, 3, 4, 5, 6, 7].includes(c.bit));
    return Boolean(it) && Array.isArray(it.controls) && it.controls.every(is_control) &&
        typeof it.switches === 'object' && it.switches !== null;
}

// What a browser keeps: by the SHA-256 of an image. Where it keeps nothing, the page's memory does.
class Shelf {
    constructor(storage) { this.storage = storage; this.memory = new Map(); }
    static of_browser() {
        try {
            const storage = globalThis.localStorage;
            storage.setItem('gravitar', '1');
            return new Shelf(storage);
        } catch { return new Shelf(null); }
    }
    keeps() { return this.storage !== null; }
    get(kind, image) {
        const name = `gravitar ${kind} ${image}`;
        try {
            return JSON.parse(this.storage?.getItem(name) ?? this.memory.get(name) ?? 'null');
        } catch { return null; }
    }
    put(kind, image, value) {
        const name = `gravitar ${kind} ${image}`, text = JSON.stringify(value);
        this.memory.set(name, text);
        try { this.storage?.setItem(name, text); } catch { this.storage = null; }
    }
}

if (typeof module === 'object') {
    module.exports = {LAYOUTS, POT_MOST, control, is_analog, byte_for, source_words, is_layout,
        Shelf};
}
