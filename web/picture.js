// What a picture shows of the strokes of a run. Nothing here knows a browser.
'use strict';

if (typeof require === 'function') globalThis.Gravitar ??= require('./core.js');

// The part of the beam's plane that a picture shows, 4 by 3: by convention, as docs/BOARD.md has
// it.
const PICTURE = Object.freeze({x0: -9830400, y0: -7372800, x1: 9830400, y1: 7372800});

// A stroke is whole for a little longer than four interrupts take, 24,576 clocks, in which many a
// program draws again; then it fades like a phosphor.
const GLOW = Object.freeze({whole: 24800, fade: 8000});
// A stroke older than this isn't seen.
const SEEN = GLOW.whole + 4 * GLOW.fade;

// The strokes among records (40 bytes each, as gravitar_records gives them).
function strokes_in(output) {
    const words = Gravitar.words_of(output), strokes = [];
    for (let at = 0; at < words.length; at += 10) {
        if (words[at + 2] !== 0) continue;
        strokes.push({
            clock: Gravitar.clock_in(words, at), x0: words[at + 3], y0: words[at + 4],
                x1: words[at + 5],
            y1: words[at + 6], colour: words[at + 7], intensity: words[at + 8],
        });
    }
    return strokes;
}

// A number of 53 bits that two strokes share only if they are the same apart from their clocks, but
// for chance. Places are often plus and minus the same power of two, so each step mixes.
function stroke_key(s) {
    let low = 0x2545f491, high = 0x1b873593;
    for (const part of [s.x0, s.y0, s.x1, s.y1, 16 * s.colour + s.intensity]) {
        low = Math.imul(low ^ part, 0x85ebca6b);
        low ^= low >>> 13;
        high = Math.imul(high + part | 0, 0xc2b2ae35) ^ low >>> 7;
        high ^= high >>> 16;
    }
    return (high >>> 11) * 4294967296 + (low >>> 0);
}

// The strokes that are seen at a clock, each with its weight, 0 to 1. A stroke that was drawn again
// counts once, so that a program that draws all the time isn't all white. `strokes` rise by clock.
function strokes_seen(strokes, clock, {whole, fade} = GLOW) {
    const list = [], drawn = new Set();
    for (let i = strokes.length - 1; i >= 0; i--) {
        const stroke = strokes[i], age = clock - stroke.clock;
        if (age < 0) continue;
        if (age > whole + 4 * fade) break;
        const key = stroke_key(stroke);
        if (drawn.has(key)) continue;
        drawn.add(key);
        stroke.weight = age <= whole ? 1 : 0.5 * Math.exp((whole - age) / fade);
        list.push(stroke);
    }
    return list;
}

// The box around strokes and a box before, or the latter where there is none.
function box_around(strokes, box = null) {
    for (const s of strokes) {
        box ??= {x0: s.x0, y0: s.y0, x1: s.x0, y1: s.y0};
        box.x0 = Math.min(box.x0, s.x0, s.x1);
        box.y0 = Math.min(box.y0, s.y0, s.y1);
        box.x1 = Math.max(box.x1, s.x0, s.x1);
        box.y1 = Math.max(box.y1, s.y0, s.y1);
    }
    return box;
}

// A box with an edge around it, as the recipes make it.
function with_edge(box) {
    const edge = Math.floor((box.x1 - box.x0 + box.y1 - box.y0) / 50) + 1;
    return {x0: box.x0 - edge, y0: box.y0 - edge, x1: box.x1 + edge, y1: box.y1 + edge};
}

// Bits 2, 1 and 0 of a colour are red, green and blue: this project's choice for its pictures.
function rgb_of(stroke) {
    return [2, 1, 0].map(bit => (stroke.colour >> bit & 1) * stroke.intensity / 15);
}

// A picture of strokes in a box, as examples/recipes/svg.awk makes it.
function svg_of(strokes, box = PICTURE, width = 420) {
    const w = box.x1 - box.x0, h = box.y1 - box.y0, high = Math.floor(width * h / w);
    const lines = [
        `<svg xmlns="http://www.w3.org/2000/svg" width="${width}" height="${high}" ` +
            `viewBox="${box.x0} ${-box.y1} ${w} ${h}">`,
        `<rect x="${box.x0}" y="${-box.y1}" width="${w}" height="${h}"/>`,
        `<g fill="none" stroke-linecap="round" stroke-width="${Math.floor(w / 200)}">`,
    ];
    for (const s of strokes) {
        const ink = rgb_of(s).map(it => Math.round(255 * it)).join(',');
        lines.push(`<path stroke="rgb(${ink})" d="M${s.x0} ${-s.y0}L${s.x1} ${-s.y1}"/>`);
    }
    return [...lines, '</g>', '</svg>', ''].join('\n');
}

// One scale for both directions, y upwards, in pixels from the lower left of a canvas.
class Placement {
    constructor(box, width, height) {
        this.scale = Math.min(width / (box.x1 - box.x0 || 1), height / (box.y1 - box.y0 || 1));
        this.x = width / 2 - this.scale * (box.x0 + box.x1) / 2;
        this.y = height / 2 - this.scale * (box.y0 + box.y1) / 2;
    }
    // How far a stroke is from a place, in pixels.
    distance(s, px, py) {
        const ax = s.x0 * this.scale + this.x, ay = s.y0 * this.scale + this.y;
        const dx = (s.x1 - s.x0) * this.scale, dy = (s.y1 - s.y0) * this.scale;
        const along = ((px - ax) * dx + (py - ay) * dy) / (dx * dx + dy * dy || 1);
        const t = Math.max(0, Math.min(1, along));
        return Math.hypot(px - ax - t * dx, py - ay - t * dy);
    }
    // The stroke nearest to a place, of those within `most` pixels, or null.
    nearest(strokes, px, py, most) {
        let best = null;
        for (const stroke of strokes) {
            const distance = this.distance(stroke, px, py);
            if (distance < most) { most = distance; best = stroke; }
        }
        return best;
    }
}

if (typeof module === 'object') {
    module.exports = {PICTURE, GLOW, SEEN, strokes_in, strokes_seen, box_around, with_edge, svg_of,
                      Placement};
}
