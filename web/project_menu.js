// The list of projects and its menu: a project is kept, opened, saved as files, shared as one.
'use strict';

class ProjectMenu {
    constructor(workshop) {
        Object.assign(this, {workshop, page: workshop.page, projects: Projects.of_browser(),
            project: null});
        for (const it of ['new', 'rename', 'save', 'share', 'demo', 'remove']) {
            $(`project-${it}`).onclick = () => {
                $('project-menu').open = false;
                this.page.attempt(() => this[`${it}_project`]());
            };
        }
        $('project').onchange = () => this.choose($('project').value);
    }
    get name() { return this.project ?? this.page.name ?? 'game'; }

    // ---- the list

    list() {
        const names = this.projects.names(), groups = [];
        const group = (label, options) => {
            const it = element('optgroup', {label});
            it.append(...options);
            groups.push(it);
        };
        if (names.length) {
            group(this.projects.keeps() ? 'Kept in this browser' : 'Kept until it is closed',
                names.map(it => new Option(it, `p ${it}`)));
        }
        group('Examples', Object.keys(GRAVITAR_EXAMPLES).map(it => new Option(it, `e ${it}`)));
        const now = this.project !== null ? `p ${this.project}` : `e ${this.page.name}`;
        $('project').replaceChildren(...groups);
        if (![...$('project').options].some(it => it.value === now)) {
            $('project').add(new Option(this.page.name ?? 'game', now), 0);
        }
        $('project').value = now;
        this.workshop.view.show_names(this.name);
    }
    choose(value) {
        const name = value.slice(2);
        if (value.startsWith('e ')) this.page.begin_example(name);
        else this.open(name);
    }
    // Sources were loaded; whoever opens a project says so afterwards.
    loaded() {
        this.project = null;
        this.list();
    }

    // ---- what is kept

    open(name) {
        const it = this.projects.get(name), {page} = this;
        if (!it) return;
        const {image, problem} = assembled(page.library, it);
        if (image) {
            if (!page.begin(image, {name, sources: it, own: it})) return;
        } else {
            this.workshop.assembly.load(it);
            page.say(`${name}: ${problem.cause}; the game before it goes on`);
        }
        page.name = this.project = name;
        $('example').value = '';
        this.list();
    }
    // Sources of files, also those that are refused. A project that has just these is opened.
    open_sources(name, sources) {
        const kept = this.projects.get(name);
        const is_same = kept && PARTS.every(it => kept[it] === sources[it]);
        const project = is_same ? name : this.projects.free(name);
        if (!is_same) this.projects.put(project, sources);
        this.open(project);
    }
    // What is typed is kept: of an example as a project of its own.
    keep() {
        const {page} = this;
        if (this.project === null) {
            const is_example = Object.hasOwn(GRAVITAR_EXAMPLES, page.name ?? '');
            this.project = this.projects.free(is_example ? `my ${page.name}` : this.name);
            page.name = this.project;
            $('example').value = '';
        }
        this.projects.put(this.project, {...this.workshop.view.sources, ...page.settings});
        if ($('project').value !== `p ${this.project}`) this.list();
    }
    // The keys or the size of the picture were changed.
    keep_settings() {
        const kept = this.project === null ? null : this.projects.get(this.project);
        if (kept) this.projects.put(this.project, {...kept, ...this.page.settings});
    }
    new_project() {
        const name = prompt('Name of the new project', this.page.name);
        if (name === null) return;
        this.page.name = this.project = this.projects.free(name);
        this.keep();
        this.list();
    }
    rename_project() {
        if (this.project === null) { this.new_project(); return; }
        const name = prompt('New name', this.project);
        if (!name || name === this.project) return;
        this.page.name = this.project = this.projects.rename(this.project, name);
        this.list();
    }
    remove_project() {
        if (this.project === null || !confirm(`Remove ${this.project} for good?`)) return;
        this.projects.remove(this.project);
        this.page.begin_example(Object.keys(GRAVITAR_EXAMPLES)[0]);
    }

    // ---- files

    save_project() {
        for (const {name, text} of saved_sources(this.name, this.workshop.view.sources)) {
            download(name, [text]);
        }
    }
    demo_project() { return this.share_project(this.page.player.session.tape(), '-demo'); }
    // The file has a plain name; the game in it has its own.
    async share_project(tape, kind = '') {
        const {page} = this, {assembly} = this.workshop, {image} = page.player;
        const sources = assembly.has_sources ? assembly.build?.sources ?? {} : {};
        const file = `${plain_name(this.name)}${kind}`;
        try {
            const game = {name: this.name, image, tape, ...sources, ...page.settings};
            const text = with_game(await page_text(), game);
            download(`${file}.html`, [text]);
            page.say(`${file}.html: the game in one file, ${Math.round(text.length / 1000)} kB`,
                true);
        } catch {
            download(`${file}.img`, [image]);
            download(`${file}.tape`, [page.player.session.tape()]);
            page.say('web/single.js, of which the one file is made, isn’t there. Image and tape ' +
                'are saved: tools/web.sh --single makes one file of them.');
        }
    }
}
