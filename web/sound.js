// What is heard: samples of the levels go to the audio device, by a worklet or, where there is
// none, by a node that asks for blocks. The samples themselves are made by core.js.
'use strict';

// Samples that wait to be heard. Where there is none, the last one dies away. Its source is the
// worklet's too.
class SampleQueue {
    constructor() {
        this.parts = [];
        this.at = this.waiting = this.missing = this.heard = 0;
        this.last = 0;
    }
    put(part) { if (part.length) { this.parts.push(part); this.waiting += part.length; } }
    clear() { this.parts = []; this.at = this.waiting = 0; }
    take(block) {
        for (let i = 0; i < block.length; i++) {
            if (this.waiting) {
                this.last = this.parts[0][this.at++];
                this.waiting--;
                this.heard++;
                if (this.at === this.parts[0].length) { this.parts.shift(); this.at = 0; }
            } else {
                this.last *= 0.995;
                this.missing++;
            }
            block[i] = this.last;
        }
    }
    counts() { return [this.waiting, this.missing, this.heard]; }
}

// A function whose text is the worklet's code. It runs in a scope of its own.
function worklet_code() {
    registerProcessor('samples', class extends AudioWorkletProcessor {
        constructor() {
            super();
            this.queue = new SampleQueue();
            this.blocks = 0;
            this.port.onmessage = it => {
                if (it.data === 'clear') this.queue.clear();
                else this.queue.put(it.data);
            };
        }
        process(_, [[block]]) {
            this.queue.take(block);
            if (++this.blocks % 8 === 0) this.port.postMessage(this.queue.counts());
            return true;
        }
    });
}

// The way to the device: put(samples), clear(), and counts that come now and then.
class WorkletLine {
    static async open(context) {
        const code = `${SampleQueue}\n(${worklet_code})();`;
        await context.audioWorklet.addModule(`data:text/javascript,${encodeURIComponent(code)}`);
        return new WorkletLine(context);
    }
    constructor(context) {
        this.kind = 'worklet';
        this.node = new AudioWorkletNode(context, 'samples',
            {numberOfInputs: 0, outputChannelCount: [1]});
        this.node.port.onmessage = it => { this.counted?.(it.data); };
    }
    put(samples) { this.node.port.postMessage(samples, [samples.buffer]); }
    clear() { this.node.port.postMessage('clear'); }
}
class BlockLine {
    constructor(context) {
        this.kind = 'blocks';
        this.queue = new SampleQueue();
        this.node = context.createScriptProcessor(1024, 0, 1);
        this.node.onaudioprocess = it => {
            this.queue.take(it.outputBuffer.getChannelData(0));
            this.counted?.(this.queue.counts());
        };
    }
    put(samples) { this.queue.put(samples); }
    clear() { this.queue.clear(); }
}

// The sound of a run. While the device doesn't run, nothing is made and nothing waits; the game
// goes on.
class Speaker {
    static LEAD = 0.05;  // seconds that wait, so that no frame comes too late
    static BEND = 0.005;                        // by how much the rate may be changed to hold them

    constructor() { this.context = this.line = null; this.volume = 0.5; this.blocks_only = false; }

    // Browsers start a device only after a key or a click. Words of a failure are kept.
    async start() {
        if (this.starting) return this.starting;
        if (this.context) { if (this.context.state !== 'running') this.resume(); return undefined; }
        const kind = globalThis.AudioContext ?? globalThis.webkitAudioContext;
        if (!kind) { this.failure = 'this browser has no sound'; return undefined; }
        this.starting = this.open(kind).catch(it => { this.failure = String(it.message ?? it); })
            .finally(() => { this.starting = null; });
        return this.starting;
    }
    async open(kind) {
        const context = new kind({latencyHint: 'interactive'});
        this.context = context;
        this.resume();
        if (context.audioWorklet && !this.blocks_only) {
            this.line = await WorkletLine.open(context).catch(() => null);
        }
        this.line ??= new BlockLine(context);
        this.gain = context.createGain();
        this.gain.gain.value = this.volume;
        this.line.node.connect(this.gain);
        this.gain.connect(context.destination);
        this.waiting = this.missing = this.heard = this.sent = this.peak = 0;
        this.line.counted = it => this.count(it);
        this.mixer = new Gravitar.Mixer(context.sampleRate);
        this.stale = true;
        this.missing_before = 0;
    }
    resume() { this.context.resume?.().catch(() => undefined); }
    // The device asks for samples: a count came, and it doesn't sleep.
    is_running() { return this.asks === true && this.context.state === 'running'; }
    // The line's own counts go on from its start; what was missing before a stretch isn't of it.
    count([waiting, missing, heard]) {
        if (this.stale) this.missing_before = missing;
        Object.assign(this, {asks: true, waiting, missing: missing - this.missing_before, heard});
    }
    set_volume(volume) {
        this.volume = volume;
        if (this.gain) this.gain.gain.value = volume;
    }
    // What waits is dropped: after a pause, a rewind or another game.
    clear() {
        this.stale = true;
        if (this.line) { this.line.clear(); this.waiting = 0; }
    }
    // The records of a stretch that ends at a clock, and the levels that both POKEYs have there.
    hear(output, clock, levels, speed = 1) {
        if (!this.is_running()) { this.stale = true; return; }
        if (this.stale) return this.begin(clock, levels);
        const rate = this.context.sampleRate, want = Speaker.LEAD * rate;
        this.mean += (this.waiting - this.mean) / 8; // counts come only now and then
        const off = Math.max(-1, Math.min(1, (want - this.mean) / want));
        this.mixer.set_rate(rate * (1 + Speaker.BEND * off) / speed);
        const samples = this.mixer.mix(output, clock);
        // After a stall: one frame less, or one gap, and not many of them until the rate has made
        // up for it.
        if (this.mean > 2 * want) { this.mean -= samples.length; return; }
        if (this.missing > this.gaps) {
            this.gaps = this.missing;
            if (this.waiting < want) this.send(new Float32Array(Math.round(want - this.waiting)));
        }
        this.send(samples);
    }
    begin(clock, levels) {
        const rate = this.context.sampleRate;
        this.mixer.begin(clock, levels);
        this.line.clear();
        this.waiting = this.missing = this.gaps = 0;
        this.stale = false;
        this.mean = Speaker.LEAD * rate;
        this.send(new Float32Array(Math.round(Speaker.LEAD * rate)));
    }
    send(samples) {
        for (const it of samples) if (Math.abs(it) > this.peak) this.peak = Math.abs(it);
        this.waiting += samples.length;
        this.sent += samples.length;
        this.line.put(samples);
    }
    words() {
        if (this.failure) return `none: ${this.failure}`;
        if (!this.line) return 'starts with the first key or click';
        if (this.context.state !== 'running') return `the audio device is ${this.context.state}`;
        const ms = Math.round(1000 * this.waiting / this.context.sampleRate);
        return `${this.context.sampleRate} Hz (${this.line.kind}), ${ms} ms wait, ` +
            `${this.missing} missing`;
    }
}

// Samples of -1 to 1 as a file: RIFF, one channel of 16 bits.
function wav_of(parts, rate) {
    const many = parts.reduce((sum, it) => sum + it.length, 0);
    const bytes = new Uint8Array(44 + 2 * many), view = new DataView(bytes.buffer);
    const word = (at, text) => { for (let i = 0; i < 4; i++) bytes[at + i] = text.charCodeAt(i); };
    word(0, 'RIFF'); word(8, 'WAVE'); word(12, 'fmt '); word(36, 'data');
    view.setUint32(4, 36 + 2 * many, true);
    view.setUint32(16, 16, true);
    view.setUint16(20, 1, true);
    view.setUint16(22, 1, true);
    view.setUint32(24, rate, true);
    view.setUint32(28, 2 * rate, true);
    view.setUint16(32, 2, true);
    view.setUint16(34, 16, true);
    view.setUint32(40, 2 * many, true);
    let at = 44;
    for (const part of parts) {
        for (const it of part) {
            view.setInt16(at, Math.round(32767 * Math.max(-1, Math.min(1, it))), true);
            at += 2;
        }
    }
    return bytes;
}

if (typeof module === 'object') module.exports = {SampleQueue, Speaker, wav_of};
