// Debian's chromium and firefox, driven without a package: one over its debugging pipe, the other
// by WebDriver BiDi over a WebSocket. Each call has a time limit.
import {spawn} from 'node:child_process';
import {createHash, randomBytes} from 'node:crypto';
import {existsSync, mkdirSync, mkdtempSync, rmSync, writeFileSync} from 'node:fs';
import net from 'node:net';
import {tmpdir} from 'node:os';
import {delimiter, join} from 'node:path';

const LIMIT = 30000;                            // milliseconds that a call may take

export const wait = ms => new Promise(done => setTimeout(done, ms));
export function limited(promise, what, ms = LIMIT) {
    let timer;
    const late = new Promise((_, fail) => {
        timer = setTimeout(() => fail(new Error(`${what}: no answer in ${ms} ms`)), ms);
    });
    return Promise.race([promise, late]).finally(() => clearTimeout(timer));
}
export function find_program(...names) {
    for (const name of names) {
        for (const folder of process.env.PATH.split(delimiter)) {
            if (existsSync(join(folder, name))) return join(folder, name);
        }
    }
    return null;
}

// Numbered requests and their answers over some line; what isn't an answer is an event.
class Requests {
    constructor(send) { Object.assign(this, {send, last: 0, open: new Map(), listeners: []}); }
    ask(method, params = {}, more = {}) {
        const id = ++this.last;
        const answer = new Promise((done, fail) => this.open.set(id, {done, fail}));
        this.send(JSON.stringify({id, method, params, ...more}));
        return limited(answer, method);
    }
    take(text) {
        const message = JSON.parse(text), request = this.open.get(message.id);
        if (!request) { this.listeners.forEach(it => it(message)); return; }
        this.open.delete(message.id);
        const error = message.error &&
            (message.error.message ?? `${message.error}: ${message.message}`);
        if (error) request.fail(new Error(error)); else request.done(message.result);
    }
}

// A test that is stopped leaves no browser behind.
for (const it of ['SIGINT', 'SIGTERM', 'SIGHUP']) process.once(it, () => process.exit(1));

// What both browsers have: a process, a folder for downloads, and what went wrong in the page.
class Browser {
    constructor() {
        this.folder = mkdtempSync(join(tmpdir(), 'gravitar-browser-'));
        this.downloads = join(this.folder, 'downloads');
        mkdirSync(this.downloads);
        this.problems = [];
    }
    start(program, words, stdio) {
        this.process = spawn(program, words, {stdio, detached: true,
            env: {...process.env, HOME: this.folder, TMPDIR: this.folder,
                XDG_CONFIG_HOME: this.folder, XDG_CACHE_HOME: this.folder}});
        this.process.on('error', it => this.problems.push(String(it)));
        process.once('exit', () => this.kill());
    }
    // The browser and all that it started; whether it was there.
    kill() {
        try { return process.kill(-this.process.pid, 'SIGKILL'); } catch { return false; }
    }
    async close() {
        const ended = new Promise(done => this.process.once('exit', done));
        if (!this.kill()) return;
        await limited(ended, 'the end of the browser', 5000).catch(() => undefined);
        rmSync(this.folder, {recursive: true, force: true, maxRetries: 5});
    }
    // Waits until an expression is true in the page.
    async until(expression, ms = 10000) {
        const end = Date.now() + ms;
        while (!await this.evaluate(expression)) {
            if (Date.now() > end) throw new Error(`not within ${ms} ms: ${expression}`);
            await wait(50);
        }
    }
    async press(code, ms = 50) {
        await this.key(code, true);
        await wait(ms);
        await this.key(code, false);
    }
}

const KEY_NAMES = {Space: ' ', Period: '.', Comma: ',', Minus: '-', Equal: '=', BracketRight: ']'};
const KEY_NUMBERS = {ArrowLeft: 37, ArrowUp: 38, ArrowRight: 39, ArrowDown: 40, Backspace: 8,
                     Space: 32, End: 35, Home: 36, Escape: 27, Tab: 9, Enter: 13};
const CHROMIUM_WORDS = ['--headless=new', '--no-sandbox', '--remote-debugging-pipe',
    '--no-first-run', '--autoplay-policy=user-gesture-required', '--disable-dev-shm-usage',
    '--use-angle=swiftshader', '--enable-unsafe-swiftshader'];

export class Chromium extends Browser {
    static find() { return find_program('chromium', 'chromium-browser', 'google-chrome'); }
    static async open({width, height}) {
        const it = new Chromium(), quiet = process.env.PULSE_SERVER ? [] : ['--mute-audio'];
        it.start(Chromium.find(), [...CHROMIUM_WORDS, ...quiet, 'about:blank',
            `--user-data-dir=${it.folder}/profile`, `--window-size=${width},${height}`],
        ['ignore', 'ignore', 'ignore', 'pipe', 'pipe']);
        await it.connect();
        await it.resize(width, height);
        return it;
    }
    async connect() {
        const [, , , out, back] = this.process.stdio;
        this.requests = new Requests(text => out.write(`${text}\0`));
        let rest = '';
        back.on('data', it => {
            const parts = (rest + it).split('\0');
            rest = parts.pop();
            parts.forEach(part => this.requests.take(part));
        });
        out.on('error', () => undefined);
        this.requests.listeners.push(it => this.hear(it));
        const {targetInfos} = await this.requests.ask('Target.getTargets');
        const {targetId} = targetInfos.find(it => it.type === 'page');
        const {sessionId} = await this.requests.ask('Target.attachToTarget',
            {targetId, flatten: true});
        this.ask = (method, params) => this.requests.ask(method, params, {sessionId});
        for (const it of ['Page', 'Runtime', 'Log', 'DOM']) await this.ask(`${it}.enable`);
        await this.requests.ask('Browser.setDownloadBehavior',
            {behavior: 'allow', downloadPath: this.downloads});
    }
    hear({method, params}) {
        const bad = /^(error|warning|assert)$/;
        if (method === 'Runtime.exceptionThrown') {
            const it = params.exceptionDetails;
            this.problems.push(it.exception?.description ?? it.text);
        } else if (method === 'Runtime.consoleAPICalled' && bad.test(params.type)) {
            this.problems.push(params.args.map(it => it.value ?? it.description).join(' '));
        } else if (method === 'Log.entryAdded' && bad.test(params.entry.level)) {
            const {text} = params.entry;
            if (!/GPU stall|swiftshader|GL Driver/i.test(text)) this.problems.push(text);
        }
    }
    async load(url) {
        const loaded = new Promise(done => {
            this.requests.listeners.push(({method}) => {
                if (method === 'Page.loadEventFired') done();
            });
        });
        await this.ask('Page.navigate', {url});
        await limited(loaded, 'loading');
    }
    async evaluate(expression) {
        const it = await this.ask('Runtime.evaluate',
            {expression, awaitPromise: true, returnByValue: true});
        const bad = it.exceptionDetails;
        if (bad) throw new Error(bad.exception?.description ?? expression);
        return it.result.value;
    }
    async key(code, down) {
        const key = KEY_NAMES[code] ?? code.replace(/^(Key|Digit)/, '').toLowerCase();
        const number = KEY_NUMBERS[code] ?? key.toUpperCase().charCodeAt(0);
        await this.ask('Input.dispatchKeyEvent', {type: down ? 'rawKeyDown' : 'keyUp', code,
            key: KEY_NUMBERS[code] && code !== 'Space' ? code : key,
                windowsVirtualKeyCode: number});
    }
    // Characters, each by a key that is pressed and let go.
    async type(text) {
        for (const it of text) {
            const key = it === '\n' ? {key: 'Enter', text: '\r', windowsVirtualKeyCode: 13} :
                {key: it, text: it};
            for (const type of ['keyDown', 'keyUp']) {
                await this.ask('Input.dispatchKeyEvent', {type, ...key});
            }
        }
    }
    async click(x, y) {
        for (const type of ['mouseMoved', 'mousePressed', 'mouseReleased']) {
            const button = type === 'mouseMoved' ? 'none' : 'left';
            await this.ask('Input.dispatchMouseEvent', {type, x, y, button, clickCount: 1});
        }
    }
    async files(selector, files) {
        const {root} = await this.ask('DOM.getDocument');
        const {nodeId} = await this.ask('DOM.querySelector', {nodeId: root.nodeId, selector});
        await this.ask('DOM.setFileInputFiles', {nodeId, files});
    }
    async resize(width, height) {
        await this.ask('Emulation.setDeviceMetricsOverride',
            {width, height, deviceScaleFactor: 1, mobile: false});
    }
    async screenshot(path) {
        const {data} = await this.ask('Page.captureScreenshot', {format: 'png'});
        writeFileSync(path, Buffer.from(data, 'base64'));
    }
}

// The client's half of RFC 6455, as far as it takes: text both ways, unfragmented to the server.
class WebSocketLine {
    static async open(port, path, hear) {
        const socket = net.connect(port, '127.0.0.1'), line = new WebSocketLine(socket, hear);
        const key = randomBytes(16).toString('base64');
        const connected = new Promise((done, fail) => {
            socket.once('connect', done);
            socket.once('error', fail);
        });
        await limited(connected, 'the port of the browser', 2000);
        socket.write(`GET ${path} HTTP/1.1\r\nHost: 127.0.0.1:${port}\r\nUpgrade: websocket\r\n` +
            `Connection: Upgrade\r\nSec-WebSocket-Key: ${key}\r\n` +
            'Sec-WebSocket-Version: 13\r\n\r\n');
        await limited(line.upgraded, 'the WebSocket', 5000);
        const sum = createHash('sha1').update(`${key}258EAFA5-E914-47DA-95CA-C5AB0DC85B11`);
        const [first] = line.head.split('\r\n');
        if (!line.head.includes(sum.digest('base64'))) throw new Error(`no WebSocket: ${first}`);
        return line;
    }
    constructor(socket, hear) {
        Object.assign(this, {socket, hear, rest: Buffer.alloc(0), parts: [], head: null});
        this.upgraded = new Promise(done => { this.done = done; });
        socket.on('data', it => { this.rest = Buffer.concat([this.rest, it]); this.take(); });
        socket.on('error', () => undefined);
    }
    take() {
        if (this.head === null) {
            const end = this.rest.indexOf('\r\n\r\n');
            if (end < 0) return;
            this.head = this.rest.subarray(0, end).toString();
            this.rest = this.rest.subarray(end + 4);
            this.done();
        }
        while (this.take_frame());
    }
    take_frame() {
        const rest = this.rest;
        if (rest.length < 2) return false;
        const short = rest[1] & 127, at = short === 126 ? 4 : short === 127 ? 10 : 2;
        if (rest.length < at) return false;
        const size = short === 126 ? rest.readUInt16BE(2) : short === 127
            ? Number(rest.readBigUInt64BE(2)) : short;
        if (rest.length < at + size) return false;
        const what = rest[0] & 15;
        if (what < 3) {
            this.parts.push(rest.subarray(at, at + size));
            if (rest[0] & 128) this.hear(Buffer.concat(this.parts.splice(0)).toString());
        } else if (what === 9) this.write(10, rest.subarray(at, at + size));
        this.rest = rest.subarray(at + size);
        return true;
    }
    send(text) { this.write(1, Buffer.from(text)); }
    write(what, bytes) {
        const mask = randomBytes(4), size = bytes.length;
        const head = size < 126 ? Buffer.from([128 | what, 128 | size])
            : Buffer.alloc(size < 65536 ? 4 : 10);
        if (size >= 126) {
            head[0] = 128 | what;
            head[1] = 128 | (size < 65536 ? 126 : 127);
            if (size < 65536) head.writeUInt16BE(size, 2);
                else head.writeBigUInt64BE(BigInt(size), 2);
        }
        this.socket.write(Buffer.concat([head, mask, bytes.map((it, i) => it ^ mask[i & 3])]));
    }
}

const BIDI_KEYS = {ArrowLeft: '\uE012', ArrowUp: '\uE013', ArrowRight: '\uE014',
    ArrowDown: '\uE015',
                   Backspace: '\uE003', Space: ' ', End: '\uE010', Home: '\uE011', Escape: '\uE00C',
                   Tab: '\uE004', Enter: '\uE007'};
const FIREFOX_PREFERENCES = port => ({
    'browser.download.folderList': 2, 'browser.download.useDownloadDir': true,
    'browser.download.always_ask_before_handling_new_types': false,
    'browser.shell.checkDefaultBrowser': false, 'datareporting.policy.dataSubmissionEnabled': false,
    'app.update.enabled': false, 'browser.aboutwelcome.enabled': false,
        'remote.active-protocols': 1,
    'toolkit.telemetry.enabled': false, 'network.captive-portal-service.enabled': false,
    'browser.startup.page': 0, 'media.autoplay.default': 0, 'media.autoplay.blocking_policy': 0,
        'webgl.force-enabled': true, 'devtools.debugger.remote-port': port,
});

export class Firefox extends Browser {
    static find() { return find_program('firefox-esr', 'firefox'); }
    static async open({width, height}) {
        const it = new Firefox(), port = await free_port(), profile = join(it.folder, 'profile');
        mkdirSync(profile);
        const preferences = {...FIREFOX_PREFERENCES(port), 'browser.download.dir': it.downloads};
        writeFileSync(join(profile, 'user.js'), Object.entries(preferences)
            .map(([name, value]) =>
                `user_pref(${JSON.stringify(name)}, ${JSON.stringify(value)});\n`).join(''));
        // On a display, such as that of xvfb-run, it has WebGL2.
        const shown = process.env.DISPLAY ? [] : ['--headless'];
        it.start(Firefox.find(), [...shown, '--no-remote', '--profile', profile,
            `--remote-debugging-port=${port}`, `--width=${width}`, `--height=${height}`,
            'about:blank'],
        'ignore');
        await it.connect(port);
        await it.resize(width, height);
        return it;
    }
    async connect(port) {
        const until = Date.now() + LIMIT;
        this.requests = new Requests(text => this.line.send(text));
        for (;;) {
            try {
                this.line = await WebSocketLine.open(port, '/session',
                    it => this.requests.take(it));
                break;
            } catch (error) {
                if (Date.now() > until) throw error;
                await wait(200);
            }
        }
        this.ask = (method, params) => this.requests.ask(method, params);
        await this.ask('session.new', {capabilities: {}});
        await this.ask('session.subscribe', {events: ['log.entryAdded', 'browsingContext.load']});
        const {contexts} = await this.ask('browsingContext.getTree', {});
        this.context = contexts[0].context;
        this.requests.listeners.push(({method, params}) => {
            if (method === 'log.entryAdded' && /^(error|warn)/.test(params.level) &&
                !/WebGL|GFX/i.test(params.text)) {
                this.problems.push(params.text);
            }
        });
    }
    async load(url) {
        await this.ask('browsingContext.navigate', {context: this.context, url, wait: 'complete'});
    }
    // The value goes through JSON, since BiDi has a form of its own for each kind.
    async evaluate(expression) {
        const it = await this.ask('script.evaluate',
            {target: {context: this.context}, awaitPromise: true,
            expression: `(async () => JSON.stringify(await (${expression})) ?? 'null')()`});
        if (it.type === 'exception') throw new Error(it.exceptionDetails.text);
        return JSON.parse(it.result.value);
    }
    async act(...actions) { await this.ask('input.performActions',
        {context: this.context, actions}); }
    async key(code, down) {
        const value = BIDI_KEYS[code] ?? KEY_NAMES[code] ?? code.replace(/^(Key|Digit)/,
            '').toLowerCase();
        await this.act({type: 'key', id: 'keyboard',
            actions: [{type: down ? 'keyDown' : 'keyUp', value}]});
    }
    async type(text) {
        for (const it of text) {
            const value = it === '\n' ? BIDI_KEYS.Enter : it;
            await this.act({type: 'key', id: 'keyboard',
                actions: [{type: 'keyDown', value}, {type: 'keyUp', value}]});
        }
    }
    async click(x, y) {
        await this.act({type: 'pointer', id: 'mouse', parameters: {pointerType: 'mouse'}, actions: [
            {type: 'pointerMove', x: Math.round(x), y: Math.round(y)},
                {type: 'pointerDown', button: 0},
            {type: 'pointerUp', button: 0}]});
    }
    async files(selector, files) {
        const {nodes} = await this.ask('browsingContext.locateNodes',
            {context: this.context, locator: {type: 'css', value: selector}});
        await this.ask('input.setFiles',
            {context: this.context, element: {sharedId: nodes[0].sharedId}, files});
    }
    async resize(width, height) {
        await this.ask('browsingContext.setViewport',
            {context: this.context, viewport: {width, height}});
    }
    async screenshot(path) {
        const {data} = await this.ask('browsingContext.captureScreenshot', {context: this.context});
        writeFileSync(path, Buffer.from(data, 'base64'));
    }
}

function free_port() {
    return new Promise((done, fail) => {
        const server = net.createServer().on('error', fail).listen(0, '127.0.0.1', () => {
            const {port} = server.address();
            server.close(() => done(port));
        });
    });
}
