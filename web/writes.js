// Which bytes an instruction writes, and which instructions of an image may write a byte. Nothing
// of the page.
'use strict';

if (typeof require === 'function') globalThis.Gravitar ??= require('./core.js');

const IRQ_VECTOR = 0xFFFE, BRK = 0, STACK_PAGE = 0x100;
// The opcodes of stores, of INC, DEC and shifts of memory, and of pushes, by what they address.
const WRITERS = {
    zero: '84 85 86 E6 C6 06 46 26 66', zero_x: '94 95 F6 D6 16 56 36 76', zero_y: '96',
    absolute: '8C 8D 8E EE CE 0E 4E 2E 6E', absolute_x: '9D FE DE 1E 5E 3E 7E', absolute_y: '99',
    indirect_x: '81', indirect_y: '91', push: '48 08', jsr: '20',
};
const MODE_OF = new Map(Object.entries(WRITERS).flatMap(([mode, codes]) =>
    codes.split(' ').map(it => [parseInt(it, 16), mode])));

function rom_byte(image, address) { return image[14336 + (address & 0xFFFF) - 0x9000]; }
function rom_word(image, address) {
    return rom_byte(image, address) | rom_byte(image, address + 1) << 8;
}

// Whether an instruction of the program ROM may write a byte, whatever the registers are.
function may_write(image, at, address) {
    const low = rom_byte(image, at + 1), word = rom_word(image, at + 1);
    const is_in_page_0 = address < 0x100;
    switch (MODE_OF.get(rom_byte(image, at))) {
    case 'zero': return address === low;
    case 'zero_x': case 'zero_y': return is_in_page_0;
    case 'absolute': return address === word;
    case 'absolute_x': case 'absolute_y': return (address - word & 0xFFFF) < 0x100;
    case 'indirect_x': case 'indirect_y': return true;
    case 'push': case 'jsr': return address >> 8 === 1;
    default: return false;
    }
}
// The bytes that an instruction of the program ROM writes, by the registers in front of it and the
// zero page.
function written_by(image, {pc, x, y, s}, zero_page) {
    const low = rom_byte(image, pc + 1), word = rom_word(image, pc + 1);
    const pointer = at => zero_page[at & 255] | zero_page[at + 1 & 255] << 8;
    switch (MODE_OF.get(rom_byte(image, pc))) {
    case 'zero': return [low];
    case 'zero_x': return [low + x & 255];
    case 'zero_y': return [low + y & 255];
    case 'absolute': return [word];
    case 'absolute_x': return [word + x & 0xFFFF];
    case 'absolute_y': return [word + y & 0xFFFF];
    case 'indirect_x': return [pointer(low + x)];
    case 'indirect_y': return [pointer(low) + y & 0xFFFF];
    case 'push': return [STACK_PAGE + s];
    case 'jsr': return [STACK_PAGE + s, STACK_PAGE + (s - 1 & 255)];
    default: return [];
    }
}
// Whether an instruction has its address from a pointer in the zero page.
function is_indirect(image, at) {
    return /^indirect/.test(MODE_OF.get(rom_byte(image, at)) ?? '');
}
// Where BRK or an interrupt leads, with three bytes pushed.
function irq_handler(image) { return rom_word(image, IRQ_VECTOR); }

// The addresses of the program ROM whose bytes are an instruction that may write a byte, executed
// or not; those with a pointer come last. BRK and interrupts have no address of their own: the one
// where they lead stands for them.
function writers_of(image, address) {
    const found = [];
    for (let at = 0x9000; at <= 0xFFFF; at++) if (may_write(image, at, address)) found.push(at);
    const handler = irq_handler(image);
    if (address >> 8 === 1 && handler >= 0x9000 && !found.includes(handler)) found.push(handler);
    return found.sort((a, b) => is_indirect(image, a) - is_indirect(image, b));
}

if (typeof module === 'object') {
    module.exports = {MODE_OF, BRK, may_write, written_by, writers_of, irq_handler,
        is_indirect};
}
