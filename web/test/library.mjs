// The module, and what core.js has beside sessions: imports, calls, want of memory, memory of long
// calls, SHA-256.
//     node library.mjs
// The last line is `N passed, M failed`.
import crypto from 'node:crypto';
import fs from 'node:fs';
import {Checks, HERE, Random, core_of, example, module_bytes} from './common.mjs';

const G = core_of(), bytes = module_bytes(), library = await G.Library.load(bytes);
const checks = new Checks(), END = G.text('0 END\n');
const read = file => new Uint8Array(fs.readFileSync(file));
const image = library.assemble(...example('ports', HERE).map(read));
const ship = library.assemble(...example('ship').map(read));

// A number of WebAssembly's binary format, 7 bits a byte.
function number(value) {
    const low = value & 127, rest = value >>> 7;
    return rest ? [low | 128, ...number(rest)] : [low];
}
function read_number(at) {
    const low = bytes[at] & 127;
    if (bytes[at] < 128) return [low, at + 1];
    const [rest, next] = read_number(at + 1);
    return [low | rest << 7, next];
}
// The module with a memory that can grow by so many pages and no more: section 5.
function with_pages(pages) {
    for (let at = 8; at < bytes.length;) {
        const [length, begin] = read_number(at + 1), [least] = read_number(begin + 2);
        const section = [1, 1, ...number(least), ...number(least + pages)];
        if (bytes[at] === 5)
            return G.joined([bytes.subarray(0, at), [5, section.length, ...section],
                             bytes.subarray(begin + length)]);
        at = begin + length;
    }
    throw new Error('the module has no memory');
}
// Without memory a call says so and changes nothing; with enough it answers as ever.
async function memory() {
    const want = library.records(image, library.power_on(), END, 20000);
    let refused = 0, answered = 0;
    for (let pages = 0; pages < 40; pages++) {
        const small = await G.Library.load(with_pages(pages));
        try {
            const got = small.records(image, library.power_on(), END, 20000);
            checks.same(`records with ${pages} pages`, got.output, want.output);
            answered++;
        } catch (error) {
            const is_so = error.status === 7 && error.message === 'no memory' && !answered;
            checks.holds(`no memory with ${pages} pages`, is_so, () => error.stack);
            refused += is_so;
        }
    }
    checks.holds('both came', refused > 9 && answered > 9, () => `${refused} ${answered}`);
}
// A call that runs for long takes no more memory than a short one.
function long_calls() {
    const size = () => library.exports.memory.buffer.byteLength, power_on = library.power_on();
    for (const it of [image, ship]) {
        library.pcm(it, power_on, END, 100000, 65535);
        const before = size();
        library.pcm(it, power_on, END, 20000000, 65535);
        checks.holds('memory of a long call', size() === before, () => `${before} ${size()}`);
    }
}
// A session whose call is refused stays where it was.
function refused_input() {
    const session = new G.Session(library, image);
    session.run(1000);
    session.set('IN9', 5);
    let said = '';
    try { session.run(2000); } catch (error) { said = error.message; }
    checks.same('an input of no port', said, 'tape: line 1: port');
    session.rewind(session.clock);
    session.run(2000);
    checks.holds('a session goes on', session.clock === 2000 && session.inputs.length === 0);
}
function text() {
    for (const count of [0, 1, 55, 56, 63, 64, 65, 119, 120, 1000]) {
        const it = new Random(count).bytes(count);
        const want = crypto.createHash('sha256').update(it).digest('hex');
        checks.same(`SHA-256 of ${count} bytes`, G.sha256(it), want);
    }
    checks.same('base64', G.bytes_of_base64(Buffer.from(bytes).toString('base64')), bytes);
    checks.same('base64 of lines', G.bytes_of_base64('R1ZT\nAg==\n'), Buffer.from('GVS\x02'));
}

const module = new WebAssembly.Module(bytes);
checks.holds('the module has no import', WebAssembly.Module.imports(module).length === 0);
checks.same('its checksum is the one told', crypto.createHash('sha256').update(bytes).digest('hex'),
    /SHA-256 of the module: (\w+)/.exec(fs.readFileSync(`${HERE}/../module.js`, 'utf8'))[1]);
const calls = WebAssembly.Module.exports(module).map(it => it.name);
const header = fs.readFileSync(`${HERE}/../../include/gravitar.h`, 'utf8');
for (const [, call] of header.matchAll(/^uint32_t (gravitar_\w+)\(/gm))
    checks.holds(`${call} is a call of the module`, calls.includes(call));
await memory();
checks.test('long calls', long_calls);
checks.test('refused input', refused_input);
checks.test('text', text);
process.exitCode = checks.end();
