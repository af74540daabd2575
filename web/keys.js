// The table of an image's keys and switches: a dialog over a layout (controls.js).
'use strict';

function element(tag, properties = {}, ...children) {
    const made = document.createElement(tag);
    const {dataset = {}, ...others} = properties;
    Object.assign(made, others);
    Object.assign(made.dataset, dataset);
    made.append(...children);
    return made;
}

class KeysDialog {
    // `changed(layout)` is called at each change.
    constructor(dialog, shelf, changed) {
        Object.assign(this, {dialog, shelf, changed});
        this.find = id => dialog.querySelector(id);
        this.waiting = null;                    // the row whose key is being chosen
        const choices = [new Option('as it is', ''),
            ...Object.keys(LAYOUTS).map(it => new Option(it))];
        this.find('#layouts').append(...choices);
        this.find('#layouts').onchange = it => this.choose(it.target.value);
        this.find('#add-control').onclick = () => {
            this.layout.controls.push(control('button', '', 'IN3.0'));
            this.update();
            this.find('#controls tr:last-child input').focus();
        };
        dialog.addEventListener('keydown', it => this.key(it), true);
        dialog.addEventListener('close', () => { this.waiting = null; });
    }
    open(layout, on) {
        this.layout = structuredClone(layout);
        this.layout.on = [...on];
        this.find('#layouts').value = '';
        this.find('#kept').textContent = this.shelf.keeps() ?
            'Kept in this browser for this image, by its SHA-256.' :
            'This browser keeps nothing for this page: the table lasts until it is closed.';
        this.show();
        this.dialog.showModal();
    }
    choose(name) {
        if (!name) return;
        this.layout = {...structuredClone(LAYOUTS[name]), on: []};
        this.update();
    }
    update() { this.show(); this.tell(); }
    tell() { this.changed(structuredClone(this.layout)); }

    // The next key that is pressed is the row's; Escape leaves it as it was.
    key(event) {
        if (!this.waiting) return;
        event.preventDefault();
        event.stopPropagation();
        if (event.code !== 'Escape') this.waiting.source = event.code;
        this.waiting = null;
        this.update();
    }
    // A pad's button or axis that moved, while a row waits for its source.
    pad(source) {
        if (!this.waiting || !this.dialog.open) return;
        this.waiting.source = source;
        this.waiting = null;
        this.update();
    }
    show() {
        this.find('#controls').replaceChildren(...this.layout.controls.map(it => this.row(it)));
        const names = this.layout.switches;
        this.find('#switches').replaceChildren(...Gravitar.PORTS.slice(3).map(port => {
            const box = element('input',
                {type: 'checkbox', checked: this.layout.on.includes(port)});
            box.onchange = () => {
                this.layout.on = this.layout.on.filter(it => it !== port);
                if (box.checked) this.layout.on.push(port);
                this.tell();
            };
            return element('label', {}, box, element('code', {}, port), names[port] ?? '');
        }));
    }
    row(it) {
        const name = element('input', {value: it.name, ariaLabel: 'name'});
        name.onchange = () => { it.name = name.value; this.tell(); };
        const stays = element('input', {type: 'checkbox', checked: it.stays});
        stays.onchange = () => { it.stays = stays.checked; this.tell(); };
        const sets = element('select', {ariaLabel: 'the bit while it is down'},
            new Option('down is 0', 0), new Option('down is 1', 1));
        sets.value = it.sets;
        sets.onchange = () => { it.sets = +sets.value; this.tell(); };
        const remove = element('button', {type: 'button', textContent: '✕', ariaLabel: 'remove'});
        remove.onclick = () => {
            this.layout.controls = this.layout.controls.filter(other => other !== it);
            this.update();
        };
        const label = element('label', {title: 'a press turns it over'}, stays, 'stays');
        const cells = [name, this.sources(it), this.target(it), sets, label, remove];
        return element('tr', {}, ...cells.map(cell => element('td', {}, cell)));
    }
    sources(it) {
        const words = this.waiting === it ? 'press a key…' : source_words(it.source);
        const key = element('button', {type: 'button', textContent: words, title: it.source});
        key.classList.toggle('is-waiting', this.waiting === it);
        key.onclick = () => { this.waiting = it; this.show(); };
        const other = element('select', {ariaLabel: 'another source'}, new Option('…', ''),
            ...['Mouse X', 'Mouse Y', 'Mouse button'].map(name => new Option(name)),
            ...[0, 1, 2, 3].map(i => new Option(`Pad axis ${i}`)),
            ...[0, 1, 2, 3].flatMap(i => ['-', '+'].map(way => new Option(`Pad axis ${i} ${way}`))),
            ...Array.from({length: 16}, (_, i) => new Option(`Pad button ${i}`)));
        other.style.width = '4.2em';
        other.onchange = () => { it.source = other.value; this.waiting = null; this.update(); };
        const both = element('div', {className: 'row'}, key, other);
        both.style.flexWrap = 'nowrap';
        return both;
    }
    target(it) {
        const bits = {IN0: 6, IN3: 8, IN4: 8}, select = element('select', {ariaLabel: 'moves'});
        for (const port of Gravitar.PORTS) {
            for (let bit = 0; bit < (bits[port] ?? 0); bit++) {
                select.add(new Option(`${port} bit ${bit}`, `${port}.${bit}`));
            }
            if (!bits[port]) select.add(new Option(`pot ${port}`, port));
        }
        select.value = it.bit === null ? it.port : `${it.port}.${it.bit}`;
        select.onchange = () => {
            const [port, bit] = select.value.split('.');
            Object.assign(it, {port, bit: bit === undefined ? null : +bit});
            this.tell();
        };
        return select;
    }
}
