// The colours of a source's line: pieces {kind, text}. Nothing of the page.
'use strict';

const OPCODES = new Set(('adc and asl bcc bcs beq bit bmi bne bpl brk bvc bvs clc cld cli clv ' +
    'cmp cpx cpy dec dex dey eor inc inx iny jmp jsr lda ldx ldy lsr nop ora pha php pla plp ' +
    'rol ror ' +
    'rti rts sbc sec sed sei sta stx sty tax tay tsx txa txs tya').split(' '));
const STATEMENTS = new Set('vctr svec stat scal jsrl jmpl cntr halt rtsl'.split(' '));
const PIECE = /(;.*)|(\s+)|(\.\w+)|(\$[0-9A-Za-z_]*|%\w*|\d\w*)|([A-Za-z_]\w*)|(.)/gs;

// Kinds: comment, label, word (an instruction or a word after a dot), number, register, name, mark,
// bad (a byte that begins no token), and '' for blanks.
function pieces_of(line, part) {
    const words = part === 'generator' ? STATEMENTS : OPCODES, pieces = [];
    let is_first = true;
    for (const it of line.matchAll(PIECE)) {
        const [text, comment, blank, dotted, number, name] = it;
        const rest = line.slice(it.index + text.length);
        let kind = 'mark';
        if (comment) kind = 'comment';
        else if (blank) kind = '';
        else if (dotted) kind = 'word';
        else if (number) kind = 'number';
        else if (name && is_first && /^\s*[:=]/.test(rest)) kind = 'label';
        else if (name && is_first) kind = words.has(text.toLowerCase()) ? 'word' : 'bad';
        else if (name) kind = /^[axy]$/i.test(name) ? 'register' : 'name';
        else if (!/[:=#(),<>+-]/.test(text)) kind = 'bad';
        if (kind && kind !== 'comment') is_first = text === ':';
        pieces.push({kind, text});
    }
    return pieces;
}

if (typeof module === 'object') module.exports = {OPCODES, pieces_of};
