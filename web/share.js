// A game as one file: the page with all its scripts, and the game before them, as
// `tools/web.sh --single` makes it. Nothing of the page but `page_text`.
'use strict';

const GAME_LINE = /<script>\nvar GRAVITAR_GAME = .*\n<\/script>\n/;

function base64_of(bytes) {
    let text = '';
    for (let i = 0; i < bytes.length; i += 8192) {
        text += String.fromCharCode(...bytes.subarray(i, i + 8192));
    }
    return btoa(text);
}
// JSON as Python writes it: a space behind `,` and `:`, and ASCII alone.
function json_line(parts) {
    const text = Object.entries(parts).filter(it => it[1] !== undefined)
        .map(([name, value]) => `${JSON.stringify(name)}: ${JSON.stringify(value)}`).join(', ');
    return `{${text}}`.replace(/[^\0-\x7f]/g,
        it => `\\u${it.charCodeAt(0).toString(16).padStart(4, '0')}`);
}
// Code in which nothing ends the element that it stands in.
function in_script(code) { return code.replace(/<(?=\/script|!--)/gi, '<\\'); }

// The script of a game {name, image, tape, processor, generator, layout, fits}, of which all behind
// the image may lack.
function game_script({name, image, tape, processor, generator, layout, fits}) {
    const parts = {name, image: base64_of(image), tape: tape && base64_of(tape), processor,
        generator, layout, fits};
    return `<script>\n${in_script(`var GRAVITAR_GAME = ${json_line(parts)};\n`)}</script>\n`;
}
// The page's text with a game, in the place of one that it has.
function with_game(text, game) {
    const bare = text.replace(GAME_LINE, ''), first = bare.indexOf('<script>');
    if (first < 0) throw new Error('the page has no script in it');
    return bare.slice(0, first) + game_script(game) + bare.slice(first);
}
// The page's text from web/single.js: what stands before and behind the module.
function whole_page([before, after], module) { return before + module + after; }

// The page's own text where all its scripts stand in it, before anything has changed; else null.
function own_text() {
    if (document.querySelector('script[src]')) return null;
    return `<!doctype html>\n${document.documentElement.outerHTML}\n`;
}
// The text of the page as one file. A page of a folder takes it from single.js, which lies beside
// it: a browser gives a page of file:// no other way to its own scripts' text.
async function page_text() {
    if (page_text.own) return page_text.own;
    if (!globalThis.GRAVITAR_SINGLE) {
        await new Promise((done, fail) => {
            const script = document.createElement('script');
            Object.assign(script, {src: 'single.js', onload: done, onerror: fail});
            document.head.append(script);
        });
    }
    return whole_page(globalThis.GRAVITAR_SINGLE, GRAVITAR_MODULE);
}

if (typeof module === 'object') {
    module.exports = {base64_of, game_script, with_game, whole_page, in_script};
}
