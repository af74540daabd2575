// What docs/REFUSALS.md says of the lines of a source: each cause with what was written, what to
// write, and how a line is known. Nothing of the page.
'use strict';

if (typeof require === 'function') {
    Object.assign(globalThis, require('./names.js'), require('./highlight.js'));
}

// A statement whose first word is no instruction and no label.
const NO_INSTRUCTION = {test(text) {
    const [, word] = /^([A-Za-z_]\w*)(?:\s|$)(?!\s*=)/.exec(text) ?? [];
    return word !== undefined && !OPCODES.has(word.toLowerCase());
}};

// [part or null for both, cause, written, write, a pattern of the statement]
const REFUSALS = [
    [null, 'no such form', 'start lda #5', 'start: lda #5',
        /^(?!jsr|jmp|lda)[a-z_]\w*\s+([a-z]{3}\b(?!\s*[,=:])|vctr|svec|stat|scal|cntr|halt)/i],
    [PROCESSOR, 'no such form', 'lsr, asl, rol, ror', 'lsr a', /^(lsr|asl|rol|ror)$/i],
    [PROCESSOR, 'no such form', 'stz 5, bra l, inc a, lax 5',
        'the 6502 has no such instruction',
        /^(stz|bra|lax|phx|phy|plx|ply|trb|tsb|sax)\b|^(inc|dec)\s+a$/i],
    [PROCESSOR, 'no such form', '.res 3', '.byte 0, 0, 0', /^\.res\b/i],
    [null, 'no such form', '.addr l, db 5, org $9000', '.word l, .byte 5, .org $9000',
        /^(\.addr|db|dw|org|byte|word)\b/i],
    [null, 'no such form', '.byte 1, and jmp l +', 'an expression follows each , and +', /[,+-]$/],
    [null, 'no such form', 'a: nop, x = 5', 'another name: a, x and y are registers',
        /^[axy]\s*[:=]/i],
    [PROCESSOR, 'no such form', 'lda #(2+3), lda a:5', 'lda #2+3, lda 5', /#\s*\(|\b[az]:/],
    [null, 'no such form', '1: nop', 'l1: nop: a name begins with a letter or _', /^\d\w*\s*:/],
    [PROCESSOR, 'no such form', 'bit #5, sta #5, ldx 5,x, jmp (5,x)', 'the 6502 has no such mode',
        /^(bit|st[axy]|ld[xy]|jmp|jsr|inc|dec|cp[xy]|adc|sbc|and|ora|eor|lda|cmp)\b.*[#,(]/i],
    [PROCESSOR, 'no such form', 'stz 5, bra l, inc a, lax 5',
        'the 6502 has no such instruction', NO_INSTRUCTION],
    [GENERATOR, 'no such form', 'vctr 5, 5, vctr 5 5 1', 'vctr 5, 5, 1: dx, dy and z, with commas',
        /^(vctr|svec)\b/i],
    [GENERATOR, 'no such form', '.byte 5', '.word 5', /^\.byte\b/i],
    [GENERATOR, 'no such form', 'jsr l, rts, center', 'jsrl l, rtsl, cntr', /^(jsr|jmp|rts|cent)/i],
    [null, 'bad token', '.byte "AB", lda #\'A\'', '.byte $41, $42, lda #$41', /["']/],
    [null, 'bad token', 'lda #5 // five', 'lda #5 ; five', /\/\//],
    [null, 'bad token', 'lda #2*3, jmp *', 'lda #6, self: jmp self', /\*/],
    [null, 'bad token', 'lda @l, lda !5', 'lda l, lda 5', /[@!]/],
    [null, 'bad token', 'a name of more than 32 characters', 'a shorter one', /[A-Za-z_]\w{32}/],
    [null, 'bad number', 'lda #0x10, lda #5x', 'lda #$10, lda #$5', /\b\d+[A-Za-z_]\w*/],
    [null, 'bad number', 'lda #$', 'lda #$0', /[$%](?!\w)/],
    [null, 'bad number', 'lda #65536, lda $10000', 'at most 65,535', /\d{5}|\$[0-9a-f]{5}/i],
    [null, 'twice named', 'l: nop and again l: nop or l = 5', 'another name', /./],
    [null, 'unknown name', 'n = m and below it m = 5',
        'm = 5 first: = and .org take names of earlier lines alone', /^\w+\s*=|^\.org/i],
    [null, 'unknown name', 'jmp nowhere', "the name with its capitals: Start isn't start", /./],
    [PROCESSOR, 'out of range', 'bne far where far is more than 127 bytes away',
        'beq near, jmp far, near:', /^b(cc|cs|eq|mi|ne|pl|vc|vs)\b/i],
    [PROCESSOR, 'out of range', 'stx $1234,y', 'sta: stx e,y has the zero page alone',
        /^(stx|sty)\b.*,/i],
    [PROCESSOR, 'out of range', 'lda #256, .byte 300, lda #-129',
        '-128 to 255; lda #<n takes the low byte', /./],
    [GENERATOR, 'out of range', 'vctr 5000, 0, 1', 'dx and dy -4,096 to 4,095: two vectors',
        /^vctr\b(?!.*,\s*\d+\s*,\s*[89]\d*$)(?!.*,\s*[89]\d*$)/i],
    [GENERATOR, 'out of range', 'svec 3, 0, 1, svec 32, 0, 1', 'even numbers, -32 to 30',
        /^svec\b/i],
    [GENERATOR, 'out of range', 'vctr 0, 0, 8, stat 8, 1, stat 1, 16, scal 8, 0',
        'z, colour and binary scale to 7, intensity to 15', /^(vctr|stat|scal)\b/i],
    [GENERATOR, 'out of range', 'jmpl 2800, jsrl $2801, jmpl $1000',
        'jmpl $2800: an even address, 2000 to 5FFF', /^(jmpl|jsrl)\b/i],
    [GENERATOR, 'outside rom', '.org $2000 and halt',
        '.org $2800: the vector RAM is filled by the processor', /./],
    [PROCESSOR, 'outside rom', '.org $FFFF and .word 5', 'the second byte has no place',
        /^\.word\b/i],
    [PROCESSOR, 'outside rom', 'bytes without .org, or .org 9000', '.org $9000: 9000 to FFFF', /./],
    [null, 'overlap', 'two lines give the same byte',
        'an .org goes back too far, or a part has grown into the next one', /./],
    [null, 'too long', 'more than 1,048,576 bytes', 'a shorter source', /./],
];

// What to write for a refused line: {written, write}, or null where nothing is known.
function cure_of(part, cause, line) {
    const bare = line.replace(/;.*/, '').trim();
    const {statement} = parts_of_line(bare), text = /^[axy]\s*:/i.test(bare) ? bare : statement;
    const found = REFUSALS.find(([of, name, , , pattern]) => (of === null || of === part) &&
        name === cause && (pattern.test(text) || pattern.test(bare)));
    return found ? {written: found[2], write: found[3]} : null;
}

if (typeof module === 'object') module.exports = {REFUSALS, cure_of};
