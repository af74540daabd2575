// A command of the program in a worker: the page goes on meanwhile, and can end it at any time.
// Where a browser makes no worker for a page of files, there is none. Nothing of the page.
'use strict';

if (typeof require === 'function') globalThis.Gravitar ??= require('./core.js');

// What runs in the worker, from the text of these functions: commands {id, words, files} in, what
// they print {id, status, out, note} out.
function worker_main(scope) {
    let library = null;
    scope.onmessage = async ({data}) => {
        if (data.module) {
            library = await Gravitar.Library.load(data.module);
            scope.postMessage({is_ready: true});
            return;
        }
        const {status, out, note} = library.command(data.words, data.files);
        scope.postMessage({id: data.id, status, out, note});
    };
}
function worker_text() {
    return `'use strict';\n${Gravitar.core}\ngravitar_core(self);\n${worker_main}\n` +
        'worker_main(self);\n';
}

class CommandWorker {
    // A worker that is ready, or null where the browser refuses one.
    static async start(module) {
        try {
            const url = URL.createObjectURL(new Blob([worker_text()], {type: 'text/javascript'}));
            const it = new CommandWorker(new Worker(url));
            const is_ready = await it.ready(module);
            URL.revokeObjectURL(url);
            if (!is_ready) it.end();
            return is_ready ? it : null;
        } catch { return null; }
    }
    constructor(worker) {
        Object.assign(this, {worker, last: 0, open: new Map(), is_ended: false});
        worker.onmessage = ({data}) => this.take(data);
        worker.onerror = event => { event.preventDefault?.(); this.end(); };
    }
    // Whether it has the module. A browser that refuses a worker says so by an error, or not at
    // all.
    ready(module, milliseconds = 10000) {
        return new Promise(done => {
            this.started = done;
            setTimeout(() => done(false), milliseconds);
            this.worker.postMessage({module});
        });
    }
    take(answer) {
        if (answer.is_ready) { this.started(true); return; }
        this.open.get(answer.id)?.(answer);
        this.open.delete(answer.id);
    }
    // What a command prints, or null where the worker was ended before.
    printed({words, files}) {
        const id = ++this.last;
        if (this.is_ended) return Promise.resolve(null);
        return new Promise((done, fail) => {
            this.open.set(id, answer => {
                if (answer === null) done(null);
                else if (answer.status === 0) done(Gravitar.string_of(answer.out));
                else fail(new Error(Gravitar.string_of(answer.note).trim()));
            });
            this.worker.postMessage({id, words, files});
        });
    }
    // What it was doing is given up.
    end() {
        this.is_ended = true;
        this.worker.terminate();
        this.started?.(false);
        for (const done of this.open.values()) done(null);
        this.open.clear();
    }
}

if (typeof module === 'object') module.exports = {worker_text, CommandWorker};
