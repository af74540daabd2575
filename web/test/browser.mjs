// The page in Debian's browsers: opened by file://, played by real key events, and what it saw held
// against the program over the tape that it saved. Nothing of npm.
//     GRAVITAR=PROGRAM node web/test/browser.mjs [FOLDER]
// FOLDER gets a screenshot of each state. ONLY of the environment chooses the checks whose names
// have it. A browser that isn't there is named and skipped. The last line is `N passed, M failed,
// K skipped`; the status is 1 where something failed or nothing was tried.
import {execFileSync} from 'node:child_process';
import {existsSync, readFileSync, rmSync} from 'node:fs';
import {join} from 'node:path';
import {pathToFileURL} from 'node:url';
import {Chromium, Firefox, wait} from './driver.mjs';
import {Checks, PAGE, PROGRAM, ROOT, WORK, equal, file, holds, program, same_log, seen_log,
    ship} from './page_checks.mjs';
import {WORKSHOP_CHECKS} from './workshop_page.mjs';

// ---- the checks

async function starts(it) {
    const {browser} = it, began = Date.now();
    await it.start();
    holds(Date.now() - began < 10000, 'it took more than ten seconds to play');
    holds((await it.get('keys')).includes('turn left'), 'the keys of the ship are on the screen');
    equal(await browser.evaluate('page.screen.shown.length'), 16, 'the strokes of the ship');
    const footer = await browser.evaluate("document.querySelector('footer').textContent");
    holds(footer.includes('not proved'),
        'the line about the proof');
    await it.shot('start');
}
async function plays(it) {
    const {browser} = it;
    await it.start();
    await it.run('page.player.seen = []; page.begin_again()');
    for (const [code, ms] of [['ArrowUp', 350], ['ArrowRight', 210], ['ArrowUp', 400],
        ['ArrowLeft', 90]]) {
        await browser.press(code, ms);
        await wait(70);
    }
    await it.shot('played');
    await browser.press('Backspace', 300);
    await browser.key('ArrowRight', true);
    await browser.press('ArrowUp', 200);
    await browser.press('KeyP');
    await browser.press('Period');
    await browser.key('ArrowRight', false);
    await browser.press('KeyP', 30);
    await browser.press('ArrowUp', 120);
    await browser.press('KeyP');
    equal(await browser.evaluate('page.player.state'), 'paused', 'the state');
    program('asm', ship('s'), ship('v'), 'ship.img');
    const {tape} = await it.compare('ship.img', 'the ship', {});
    holds(tape.split('\n').length > 8, `few inputs were recorded: ${tape}`);
}
// A look leaves the run as it is, and shows the board of that clock.
async function looks_back(it) {
    const {browser} = it;
    const before = await it.tape();
    await it.run("$('time').value = 700001; $('time').oninput()");
    await browser.until("$('board').textContent.startsWith('clock 700001')");
    const tape = file('look.tape', before), want = program('seek', 'ship.img', tape, '700001');
    equal(await it.get('board'), want, 'the board of that clock');
    await it.shot('look');
    await browser.press('End');
    await browser.until("page.player.state === 'paused'");
    equal(await it.tape(), before, 'the tape after it');
}
async function saves(it) {
    const {browser} = it;
    const clock = await it.clock();
    const board = file('saved.board', await it.save('board', `ship-${clock}.board`));
    equal(program('show', board), await it.get('board'), 'the text of the saved board');
    holds((await it.save('picture', `ship-${clock}.svg`)).toString().startsWith('<svg '),
        'the picture is an SVG');
    const wav = await it.save('sound', 'ship.wav');
    equal(wav.length, wav.readUInt32LE(4) + 8, 'the length of the WAV');
    const seconds = (wav.length - 44) / 96000, want = clock / 1512000;
    holds(Math.abs(seconds - want) < 0.001, `the sound has ${seconds} s, the run ${want} s`);
    equal((await it.save('cells', 'ship.cells')).length, 64, 'the length of the cells');
    const image = await it.save('image', 'ship.img');
    holds(image.equals(readFileSync(join(WORK, 'ship.img'))), 'the image is that of gravitar asm');
}
// A board that was saved goes on, and the tape is saved with it.
async function opens_board(it) {
    const {browser} = it;
    await it.run('page.player.seen = []');
    await it.open(join(WORK, 'saved.board'));
    await browser.press('ArrowUp', 250);
    await browser.press('KeyP');
    holds(!await browser.evaluate('page.player.session.is_at_power_on'),
        'the run begins at the board');
    await it.compare('ship.img', 'a saved board', {board: true});
    holds((await it.get('message')).includes('--state ship.board'), 'the command names the board');
}
async function plays_tape(it) {
    const {browser} = it;
    await it.run("page.player.seen = []; $('speed').selectedIndex = 7; page.set_speed()");
    await it.open(join(WORK, 'ship.img'), ship('tape'));
    await browser.until("page.player.state === 'paused' && page.player.session.clock > 1e7", 30000);
    await it.run("$('speed').selectedIndex = 4; page.set_speed()");
    equal(await it.clock(), 13608000, 'the clock where the tape ends');
    const want = program('run', 'ship.img', ship('tape'));
    seen_log(await it.seen(), want, 13608000, 'the tape');
    await it.shot('tape');
}
async function refuses(it) {
    const bad = file('bad.s', '        .org $9000\nstart:  ldx #0\n        jump start\n');
    await it.open(bad, ship('v'));
    const words = await it.get('message');
    let said = '';
    try {
        program('asm', bad, ship('v'), 'no.img');
    } catch (error) { said = error.stderr.toString(); }
    const cause = said.trim().split(': ').at(-1);
    holds(words.includes('line 3') && words.includes(cause) && words.includes('jump start'),
        `a refused source says ${JSON.stringify(words)}, the program ${JSON.stringify(said)}`);
    await it.shot('refused');
    const cases = [['odd.bin', Buffer.alloc(100), '100 bytes'],
        ['bad.tape', '5 IN9 00\n9 END\n', 'line 1: port'],
        ['empty.img', '', 'empty'], ['bad.log', 'S 5 1 2\n', 'line 1'], ['alone.s', 'x', '.v'],
        ['bad.board', Buffer.alloc(4356), 'saved board']];
    for (const [name, bytes, want] of cases) {
        await it.open(file(name, bytes));
        const got = await it.get('message');
        holds(got.includes(want), `${name}: ${JSON.stringify(got)} has no ${want}`);
    }
    await it.browser.press('Escape');
}
async function opens_sources(it) {
    const {browser} = it, square = name => join(ROOT, 'examples', 'square', `square.${name}`);
    await it.run('page.player.seen = []');
    await it.open(square('s'), square('v'));
    await browser.until('page.player.session.clock > 500000');
    await browser.press('KeyP');
    program('asm', square('s'), square('v'), 'square.img');
    await it.compare('square.img', 'the square');
    await it.shot('square');
}
// The EAROM's cells stay with the image, and the tape of the next run is saved with its board.
async function keeps_cells(it) {
    const {browser} = it;
    await it.choose('score');
    for (let i = 0; i < 2; i++) { await browser.press('Space', 80); await wait(80); }
    await browser.press('KeyP');
    await it.start();
    await it.run('page.player.seen = []');
    await it.choose('score');
    await browser.until('page.player.session.clock > 100000');
    await browser.press('Space', 80);
    await browser.press('KeyP');
    program('asm', join(ROOT, 'examples/score/score.s'), join(ROOT, 'examples/score/score.v'),
        'score.img');
    const {want} = await it.compare('score.img', 'the score', {board: true});
    equal(want.split('\n')[0].split(' ')[2], '02', 'the count that the run begins with');
}
// A table of keys that was changed is there again after the page was loaded anew.
async function keeps_keys(it) {
    const {browser} = it;
    await it.start();
    await it.click('change-keys');
    await it.shot('keys');
    await it.run("document.querySelector('#controls td button').click()");
    await browser.press('KeyA');
    await browser.press('Escape');
    await it.start();
    await it.run('page.player.seen = []; page.begin_again()');
    await browser.press('KeyA', 100);
    await browser.press('KeyP');
    const {tape} = await it.compare('ship.img', 'a changed key');
    holds(tape.includes('IN3 FE'), `the new key wasn't recorded: ${tape}`);
    await it.run('localStorage.clear()');
}
// Real moves of the mouse, and a pad that the test makes up.
async function pots_and_pads(it) {
    const {browser} = it;
    await it.start();
    await browser.evaluate(`(() => {
        window.pad = {buttons: [{pressed: false}], axes: [0, 0]};
        Object.defineProperty(navigator, 'getGamepads', {value: () => [window.pad, null]});
        page.dialog.changed({switches: {}, on: ['P3'], controls: [control('x', 'Mouse X', 'P0'),
            control('engine', 'Pad button 0', 'IN3.2'), control('left', 'Pad axis 0 -', 'IN3.0'),
            control('y', 'Pad axis 1', 'Q1')]});
        page.player.seen = [];
        page.begin_again();
    })()`);
    for (const change of ['buttons[0].pressed = true', 'axes[0] = -1', 'axes[1] = 1',
        'buttons[0].pressed = false']) {
        await it.run(`window.pad.${change}`);
        await wait(120);
    }
    await browser.click(300, 300);
    await wait(60);
    await browser.click(600, 300);
    await browser.press('KeyP');
    const {tape} = await it.compare('ship.img', 'pots and pads');
    for (const line of ['0 P3 FF', ' IN3 FB', ' IN3 FA', ' Q1 E4', ' IN3 FE', ' P0 ']) {
        holds(tape.includes(line), `no ${line} in ${tape}`);
    }
    await it.run('localStorage.clear()');
}
async function wires_timers(it) {
    const {browser} = it;
    await it.start();
    await it.run("page.player.seen = []; $('timers').click()");
    await browser.press('ArrowUp', 200);
    await browser.press('KeyP');
    holds(await browser.evaluate('page.player.session.timers'), 'the timers are wired');
    await it.compare('ship.img', 'timers', {options: ['--timers']});
    holds((await it.get('message')).includes('--timers'), 'the command has --timers');
}
async function views_logs(it) {
    const {browser} = it, log = program('run', 'ship.img', ship('tape'));
    const lines = log.split('\n');
    await it.open(file('ship.log', log));
    await browser.until("document.body.dataset.mode === 'log'");
    const many = new Intl.NumberFormat('en').format(lines.length - 1);
    holds((await it.get('log-words')).includes(many),
        'the count of lines');
    await it.run('page.go_time(340000)');
    const clock = text => Number(text.split(' ')[1]);
    const line = JSON.stringify(lines.findLast(it => it && clock(it) <= 340000));
    await browser.until(`document.querySelector('#lines b').textContent === ${line}`);
    await it.shot('log');
    await browser.press('Period');
    equal(await browser.evaluate('page.viewer.at'), clock(lines.find(it => clock(it) > 340000)),
        'the next record');
    const at = lines.findIndex(it => clock(it) > 5000000), other = [...lines];
    other[at] = other[at].replace(/\d$/, it => String((Number(it) + 5) % 10));
    await it.open(file('other.log', other.join('\n')));
    await browser.until('page.viewer.logs.length === 2');
    equal(await browser.evaluate('page.viewer.difference.line'), at,
        'the line at which two logs differ');
    equal(await browser.evaluate('page.viewer.at'), clock(lines[at]), 'the clock of the view');
    await wait(300);
    await it.shot('difference');
}
async function views_large_log(it) {
    const lines = [], random = () => (seed = Math.imul(seed, 1103515245) + 12345 | 0) >> 8;
    let seed = 1, size = 0;
    for (let clock = 100; size < 62e6; clock += 24) {
        const is_level = lines.length % 5 === 0;
        const line = is_level ? `A ${clock} ${lines.length % 16} 0 3 ${clock % 15}\n` :
            `S ${clock} ${[1, 2, 3, 4].map(random).join(' ')} ${lines.length % 8} 11\n`;
        size += line.length;
        lines.push(line);
    }
    holds(lines.length > 1e6, 'a million lines');
    const path = file('large.log', lines.join(''));
    await it.run('page.viewer.clear()');
    const began = Date.now();
    await it.open(path);
    await it.browser.until(`page.viewer.log?.count === ${lines.length}`, 30000);
    const read = Date.now() - began;
    const drawn = await it.browser.evaluate(`(() => {
        const began = performance.now();
        for (let i = 1; i <= 10; i++) { page.go_time(page.viewer.end * i / 11); page.draw(); }
        return (performance.now() - began) / 10;
    })()`);
    const megabytes = (size / 1e6).toFixed(0);
    console.log(`${it.name}: ${megabytes} MB and ${lines.length} lines: read in ${read} ms, ` +
        `${drawn.toFixed(0)} ms for a view`);
    holds(drawn < 1000, 'a view takes less than a second');
    await it.shot('large-log');
    rmSync(path);
}
// The ear and the hand: a device that sleeps stops nothing, and nothing waits for it.
async function sound_sleeps(it) {
    const {browser} = it;
    await it.start();
    await browser.press('ArrowUp', 500);
    await browser.evaluate('page.speaker.start()');
    const words = await browser.evaluate('page.speaker.words()');
    await wait(300);
    const running = await browser.evaluate('page.speaker.is_running()');
    if (running) {
        await browser.press('ArrowUp', 700);
        holds(await browser.evaluate('page.speaker.sent > 20000'), 'samples were sent');
        await wait(1500);
        equal(await browser.evaluate('page.speaker.line.kind'), 'worklet',
            'the way of the samples');
        const [waiting, rate] =
            await browser.evaluate('[page.speaker.waiting, page.speaker.context.sampleRate]');
        holds(waiting < 0.2 * rate, `${waiting} samples wait`);
        await browser.evaluate('page.speaker.context.suspend()');
    }
    const clock = await it.clock();
    await wait(800);
    holds(await browser.evaluate(`page.player.session.clock > ${clock} + 400000`),
        'the game stood still');
    const sent = await browser.evaluate('page.speaker.sent ?? 0');
    await wait(400);
    equal(await browser.evaluate('page.speaker.sent ?? 0'), sent,
        'what was sent to a device that sleeps');
    if (running) await browser.evaluate('page.speaker.context.close()');
    await wait(300);
    console.log(`${it.name}: ${words}`);
}
async function small_screen(it) {
    const {browser} = it;
    await browser.resize(390, 844);
    await it.start();
    const wide = await browser.evaluate(
        '(it => it.scrollWidth - it.clientWidth)(document.documentElement)');
    equal(wide, 0, 'pixels beside a small screen');
    await it.shot('small');
    await it.click('change-keys');
    await it.shot('small-keys');
    await browser.resize(1280, 800);
}
async function keyboard_alone(it) {
    const {browser} = it;
    await it.start();
    const reached = new Set();
    for (let i = 0; i < 40; i++) {
        await browser.press('Tab', 5);
        reached.add(await browser.evaluate('document.activeElement.id'));
    }
    const wanted = 'example open play step back speed volume time fit full change-keys again';
    for (const id of wanted.split(' ')) {
        holds(reached.has(id), `Tab never comes to ${id}`);
    }
    await it.run("$('canvas').focus()");
    await browser.press('BracketRight');
    holds((await it.get('stroke')).startsWith('S '), 'a stroke is chosen by a key');
}
async function shows_strokes(it) {
    const {browser} = it;
    await it.start();
    await browser.press('KeyP');
    const [x, y] = await browser.evaluate(`(() => {
        const s = page.screen.shown.find(it => it.colour === 2 && it.x0 === it.x1),
            p = page.screen.place();
        const box = page.screen.canvas.getBoundingClientRect();
        return [box.x + (s.x0 * p.scale + p.x), box.y +
            box.height - ((s.y0 + s.y1) / 2 * p.scale + p.y)];
    })()`);
    await browser.click(x, y);
    holds(/^S \d+ .* 2 12\n/.test(await it.get('stroke')),
        `the clicked stroke: ${await it.get('stroke')}`);
    await it.shot('stroke');
}
async function full_screen(it) {
    const {browser} = it;
    await it.start();
    await browser.press('KeyF');
    await browser.until("$('stage').clientHeight > 700 && $('stage').clientWidth > 1200");
    await it.shot('full');
    await it.run("document.exitFullscreen?.().catch(() => 0); page.full()");
    await browser.until("$('stage').clientHeight < 700");
}
async function plane(it) {
    await it.start('#2d');
    equal(await it.browser.evaluate('page.screen.kind'), '2D', 'the way of drawing');
    await it.shot('plane');
    await it.browser.load(PAGE);
}

// The page as one file, with a game and its tape in it.
async function one_file(it) {
    const {browser} = it, out = join(WORK, 'one.html');
    execFileSync('sh', [join(ROOT, 'tools', 'web.sh'), '--single', out, join(WORK, 'ship.img'),
        ship('tape')],
        {timeout: 60000, stdio: 'pipe'});
    await browser.load(pathToFileURL(out).href);
    await browser.until('window.page?.player.session?.clock > 500000');
    const {name, clock,
        port} = await browser.evaluate(`({name: page.name, clock: page.player.session.tape_end,
        port: page.player.session.inputs.length})`);
    equal([name, clock, port].join(' '), 'ship 13608000 20',
        'the name, the end of the tape and its inputs');
}

const CHECKS = [
    ['starts with the ship', starts], ['plays by key events, as the program over its tape', plays],
    ['shows the board of any clock', looks_back], ['saves what it has', saves],
    ['goes on from a saved board', opens_board], ['plays a tape', plays_tape],
    ['refuses what is bad', refuses], ['assembles two sources', opens_sources],
    ['keeps the cells', keeps_cells], ['keeps the keys', keeps_keys],
    ['pots and pads', pots_and_pads], ['the timers', wires_timers],
        ['shows a log and a difference', views_logs],
    ['shows a log of 62 MB', views_large_log], ['a device that sleeps', sound_sleeps],
    ['a small screen', small_screen], ['the keyboard alone', keyboard_alone],
        ['a click on a stroke', shows_strokes],
    ['the full screen', full_screen], ['draws without WebGL2', plane],
    ['one file with a game in it', one_file], ...WORKSHOP_CHECKS,
];

async function try_browser(kind, counts) {
    const name = kind.name.toLowerCase();
    if (!kind.find()) {
        console.log(`${name}: skipped, since it isn't on this machine`);
        counts.skipped++;
        return;
    }
    let browser;
    try {
        browser = await kind.open({width: 1280, height: 800});
        const it = new Checks(name, browser);
        // The ship's image, for a check that is tried without those before it.
        program('asm', ship('s'), ship('v'), 'ship.img');
        const only = process.env.ONLY ?? '';
        for (const [what, doing] of CHECKS) {
            if (what.includes(only)) await it.check(what, () => doing(it));
        }
        counts.passed += it.passed;
        counts.failed += it.failed;
    } catch (error) {
        console.log(`${name}: FAILED: ${error.message}`);
        counts.failed++;
    } finally {
        await browser?.close();
    }
}

async function main() {
    const counts = {passed: 0, failed: 0, skipped: 0};
    if (!PROGRAM || !existsSync(PROGRAM)) {
        console.log('browser.mjs: GRAVITAR has to name the program (tools/quick.sh makes it)');
        process.exit(1);
    }
    const only = process.env.BROWSERS?.split(' ');
    for (const kind of [Chromium, Firefox]) {
        if (!only || only.includes(kind.name.toLowerCase())) await try_browser(kind, counts);
    }
    rmSync(WORK, {recursive: true, force: true});
    console.log(`${counts.passed} passed, ${counts.failed} failed, ${counts.skipped} skipped`);
    process.exit(counts.failed || !counts.passed ? 1 : 0);
}
await main();
