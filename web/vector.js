// From a stroke to the generator's word that drew it, and back. Nothing of the page.
'use strict';

if (typeof require === 'function') globalThis.Gravitar ??= require('./core.js');

function word_at(board, image, address) {
    const byte = at => at < 0x2800 ? board[2308 + at - 0x2000] : image[at - 0x2800];
    return byte(address) | byte(address + 1) << 8;
}
function signed(number, bits) { return number & 1 << bits - 1 ? number - (1 << bits) : number; }
// The way of a vector that begins at an address, {dx, dy, words}, or null where there is none.
function vector_at(board, image, address) {
    if (address < 0x2000) return null;
    const first = word_at(board, image, address);
    if (first >> 13 === 2) {
        return {words: 1, dx: 2 * signed(first & 31, 5), dy: 2 * signed(first >> 8 & 31, 5)};
    }
    if (first >> 13 !== 0) return null;
    const second = word_at(board, image, address + 2);
    return {words: 2, dx: signed(second & 0x1FFF, 13), dy: signed(first & 0x1FFF, 13)};
}
// How far a vector's way is from that of a stroke: 0 where they have one direction.
function turn_between(vector, stroke) {
    const a = Math.atan2(vector.dy, vector.dx);
    const b = Math.atan2(stroke.y1 - stroke.y0, stroke.x1 - stroke.x0);
    if (stroke.x0 === stroke.x1 && stroke.y0 === stroke.y1) return 0;
    const turn = Math.abs(a - b) % (2 * Math.PI);
    return Math.min(turn, 2 * Math.PI - turn);
}

/* The word that drew a stroke, {address, words}. The board of the stroke's clock has the generator
 * in the last clock of the vector, and its pc behind the vector's one or two words; so the address
 * is exact. Where both a short and a long vector could end there, it is the one with the stroke's
 * direction. */
function word_of_stroke(board, image, stroke) {
    const end = 0x2000 + 2 * (board[46] + 256 * board[47]);
    const found = [1, 2].map(words => ({words, address: end - 2 * words}))
        .filter(it => vector_at(board, image, it.address)?.words === it.words)
        .map(it => ({...it, turn: turn_between(vector_at(board, image, it.address), stroke)}));
    found.sort((a, b) => a.turn - b.turn);
    return found.length ? {address: found[0].address, words: found[0].words} : null;
}

// The words of strokes of a session, in the order of their clocks: {stroke, address, words}.
function words_of_strokes(session, strokes) {
    const sorted = [...strokes].sort((a, b) => a.clock - b.clock), list = [];
    let board = null;
    for (const stroke of sorted) {
        const at = board === null ? null : Gravitar.clock_of(board);
        board = at === null || stroke.clock - at > Gravitar.HZ / 4 ?
            session.look(stroke.clock).board :
            stroke.clock > at ? session.step(board, stroke.clock).board : board;
        const word = word_of_stroke(board, session.image, stroke);
        if (word) list.push({stroke, ...word});
    }
    return list;
}

if (typeof module === 'object') {
    module.exports = {word_at, vector_at, word_of_stroke, words_of_strokes};
}
