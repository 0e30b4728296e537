// The page: what is asked of the program as a text is typed, and where its answers are shown.

import { Editor, Pane, isAssembly, learn, placeOf, spansOf } from './text.js';
import { Machine } from './machine.js';

const $ = (id) => document.getElementById(id);
const token = document.querySelector('meta[name=token]').content;

// The tabs of the views, of which the first six are forms of a program; all but the assembly text are told by `show`.
// The two behind them are told by `native --listing` of the assembly text, where the program has that command.
const TABS = Object.fromEntries([...document.querySelectorAll('[role=tab]')].map((it) => [it.id.slice(4), it]));
const VIEWS = Object.keys(TABS), FORMS = VIEWS.slice(0, 6), SHOWN = FORMS.slice(0, 5), NATIVE = VIEWS.slice(6, 8);
const LANGUAGES = { source: 'source', assembly: 'tal', word: 'listing', native: 'listing' };
// The lines of instructions and those at which blocks begin. In an assembly text that is written each instruction is a
// line, and labels have large letters. In a listing word code stands in comments, and machine code behind addresses.
const BLOCK = /^[0-9a-f]{16} </gm, MACHINE = /^ *[0-9a-f]+:\t.*\n/gm;
const COUNTED = {
    assembly: [/^(?!tal )[a-z]/gm, /^L\d+: code/gm], word: [/^ {2}; /gm, BLOCK], native: [MACHINE, BLOCK],
};
const EXTENSIONS = { source: 'f', tal: 'tal', assembly: 'tal' };
// Of a longer text only the forms in sight are asked for.
const MOST_EAGER = 30000;
// A longer text is put into no address.
const MOST_LINKED = 200000;

// The first line of `explain`, and that of `check` or `typeof`: what may stand before the fault's number, and the bytes
// that it is at.
const FAULT = /^(?:.*?:?\d+:\d+: )?([A-Z]\d+) (?:.*\(bytes )?(\d+)\.\.(\d+)/;

// For each language its text's name, the example that it began as, and the view in sight; the mode is the language in
// sight.
const names = { source: '', tal: '' }, taken = { source: '', tal: '' }, views = { source: 'cps', tal: 'machine' };
let mode = 'source', most = 0, examples = [], commands = new Set();
// What is asked of the text in sight: how to give it up, and the forms that are fetched.
let turn = { aborter: new AbortController() };
const editors = {}, panes = {}, articles = {};
let machine;

// Asking

async function post(path, body, signal) {
    const answer = await fetch(path, { method: 'POST', headers: { 'X-Token': token }, body, signal }).catch(() => {
        signal?.throwIfAborted();
        throw new Error('The server does not answer: is tools/playground still running?');
    });
    if (!answer.ok) {
        throw new Error((await answer.text()).trim());
    }
    return answer.json();
}

// What a command of the program shows of a text.
async function ask(command, given, text, signal) {
    const found = await post(`${command}?${new URLSearchParams(given)}`, text, signal);
    signal.throwIfAborted();
    found.said = found.bound ?? (found.out + found.err).trimEnd();
    return found;
}

function notice(text) {
    $('notice').textContent = text ?? '';
    $('notice').hidden = !text;
}

// Runs what asks; a text that was given up in the meantime is no matter.
async function attempt(work) {
    try {
        await work();
    } catch (error) {
        if (error.name !== 'AbortError') {
            notice(error.message);
        }
    }
}

// Showing the answers

// Puts what a command said, or another text, into a row; the command itself is told where the pointer rests.
function say(id, found, text = found?.said) {
    Object.assign($(id), { textContent: text ?? '', title: found ? commandOf(found) : '' });
    $(id).dataset.status = found?.status ?? '';
}

function commandOf(found) {
    return found.words.replace('IN', $('name').textContent).replace('OUT', 'made.tal');
}

// Shows the first fault, if there is one, by the text of `explain`, without the name of its file; by that of `check` or
// `typeof` where the text is of the other language. E15, that a term has another type than int, is a fault of the
// whole, and is not marked.
function showFault(known, explained) {
    const found = explained.said === 'no fault' ? known : explained;
    const [, code, start, end] = FAULT.exec(found.said) ?? [];
    const isFault = found.status !== 0 || code !== undefined;
    $('fault').hidden = !isFault;
    const said = found.said.replace(/^IN(?=:\d)/, () => $('name').textContent).split('\n');
    const lines = said.map((it) => ({ text: `${it}\n`, kind: /^ *\d* \|/.test(it) ? 'line' : '' }));
    $('explained').replaceChildren(...spansOf(lines));
    const editor = editors[mode];
    const isMarked = code && code !== 'E15';
    editor.mark('fault', ...(isMarked ? [start, end].map((it) => placeOf(editor.text, Number(it))) : []));
    document.body.classList.toggle('refused', isFault);
    editor.field.setAttribute('aria-invalid', isFault);
    return isFault;
}

async function refresh() {
    turn.aborter.abort();
    const mine = turn = { aborter: new AbortController(), text: editors[mode].text, forms: {} };
    const { text, aborter: { signal } } = mine;
    const bytes = new TextEncoder().encode(text).length;
    $('length').textContent = counted(bytes, 'byte');
    showName(text);
    notice(bytes > most ? `The text has more than the ${most.toLocaleString('en')} bytes that the program takes.` : '');
    if (bytes > most) {
        return;
    }
    document.body.classList.add('busy');
    await attempt(async () => {
        keepLink(text, signal);
        const [command, place] = mode === 'tal' ? ['check', 'check'] : ['typeof', 'type'];
        const [known, explained] = await Promise.all([command, 'explain'].map((it) => ask(it, {}, text, signal)));
        say(place, known, known.status === 0 ? known.said : '–');
        ['eval', 'compile', 'run'].forEach((it) => say(it));
        if (showFault(known, explained)) {
            machine.clear('Nothing runs while the text has a fault.');
        } else {
            machine.pane ?? machine.clear('');
            await (mode === 'tal' ? showAssembly(mine, text, editors.tal) : showProgram(mine));
        }
        document.body.classList.remove('busy');
    });
}

// Shows a program of the source: its value, its forms, and the run of its assembly text.
async function showProgram(mine) {
    const { text, aborter: { signal } } = mine, registers = $('registers').value;
    const compile = async () => {
        const found = await ask(registers ? 'compile-within' : 'compile', { registers }, text, signal);
        say('compile', found, fill('assembly', found));
        if (found.status === 0) {
            panes.machine.show(found.out, 'tal');
            await showAssembly(mine, found.out, panes.machine);
        } else {
            NATIVE.forEach((it) => fill(it, found, ''));
        }
    };
    const evaluate = async () => say('eval', await ask('eval', { turns: $('turns').value }, text, signal));
    await Promise.all([evaluate(), showForms(mine), compile()]);
}

// Shows the run and the native code of an assembly text.
function showAssembly(mine, assembly, pane) {
    mine.assembly = assembly;
    return Promise.all([showRun(assembly, pane, mine.aborter.signal), showNative(mine)]);
}

// Shows word code and machine code, of a long text where they are in sight. One listing has both.
function showNative(mine) {
    const { assembly, aborter: { signal } } = mine;
    const isWanted = assembly?.length <= MOST_EAGER || NATIVE.some((it) => !articles[it].hidden);
    const show = async () => {
        const found = await ask('native', {}, assembly, signal), listing = found.status === 0 ? found.out : '';
        fill('word', found, listing.replace(MACHINE, ''));
        fill('native', found, listing);
    };
    return commands.has('native') && assembly !== undefined && isWanted ? mine.native ??= show() : null;
}

// Shows the forms in sight, and of a short text all, each asked for once.
function showForms(mine) {
    const { text, forms, aborter: { signal } } = mine;
    const wanted = SHOWN.filter((it) => text.length <= MOST_EAGER || !articles[it].hidden);
    const show = async (form) => fill(form, await ask('show', { form }, text, signal));
    return Promise.all(wanted.map((it) => forms[it] ??= show(it)));
}

function counted(count, word) {
    return `${count.toLocaleString('en')} ${word}${count === 1 ? '' : 's'}`;
}

// Puts a form, or why there is none, into its pane, and gives its size in words.
function fill(form, found, text = found.status === 0 ? found.out : '') {
    articles[form].text = text;
    panes[form].show(text || found.said, LANGUAGES[form] ?? 'inner');
    const lines = text.split('\n').length - 1;
    const many = (pattern, word) => counted((text.match(pattern) ?? []).length, word);
    const [instructions, blocks] = COUNTED[form] ?? [];
    const size = !instructions ? counted(lines, 'line')
        : `${many(instructions, 'instruction')} in ${many(blocks, 'block')}`;
    Object.assign(articles[form].querySelector('.sizes'), { textContent: size, title: commandOf(found) });
    TABS[form].querySelector('small').textContent = text ? lines.toLocaleString('en') : '';
    return text ? size : found.said;
}

// Runs an assembly text, and readies the machine.
async function showRun(text, pane, signal) {
    const fuel = $('fuel').value;
    const found = await ask('run', { fuel }, text, signal);
    say('run', found);
    if (found.status === 4) {
        return machine.load(text, pane, Number(fuel), false, signal);
    } else if (found.status !== 0) {
        return machine.clear(found.said);
    }
    const last = await (commands.has('cost') ? toldSteps : searchedSteps)(text, Number(fuel), signal);
    say('run', found, `${found.said} after ${counted(last, 'instruction')}`);
    return machine.load(text, pane, last, true, signal);
}

// After how many instructions a text halts, which does so within `fuel`: by the first line of `cost`.
async function toldSteps(text, fuel, signal) {
    const found = await ask('cost', { fuel }, text, signal);
    const told = /^instructions (\d+)$/m.exec(found.said);
    return told ? Number(told[1]) : searchedSteps(text, fuel, signal);
}

// The same of a program that does not tell it: by `run` down to few, and among these by the last state of `trace`.
async function searchedSteps(text, fuel, signal) {
    let [from, to] = [0, fuel];
    while (to - from > 300) {
        const middle = Math.floor((from + to) / 2);
        const half = await ask('run', { fuel: middle }, text, signal);
        [from, to] = half.status === 4 ? [middle, to] : [from, middle];
    }
    const traced = await ask('trace', { from, to }, text, signal);
    return Number(/^\d+/.exec(traced.said.split('\n').at(-2)));
}

// Views and modes

function choose(name, focus) {
    views[mode] = name;
    for (const it of VIEWS) {
        TABS[it].setAttribute('aria-selected', it === name);
        TABS[it].tabIndex = it === name ? 0 : -1;
        (articles[it] ?? {}).hidden = it !== name && !(name === 'all' && FORMS.includes(it));
    }
    $('views').dataset.view = name;
    // (not by scrollIntoView, which would move the page too)
    const tab = TABS[name], bar = tab.parentElement;
    bar.scrollLeft = Math.max(Math.min(bar.scrollLeft, tab.offsetLeft - bar.offsetLeft - 20),
        tab.offsetLeft + tab.offsetWidth - bar.offsetLeft - bar.clientWidth + 20);
    if (focus) {
        TABS[name].focus();
    }
    if (!document.body.classList.contains('refused') && turn.forms) {
        attempt(() => Promise.all([mode === 'source' ? showForms(turn) : null, showNative(turn)]));
    }
    machine.pane?.reveal('now');
}

// Turns to a language, and to the machine where it is assembly; with a text, to that text.
function turnTo(language, text, name) {
    mode = language;
    document.body.dataset.mode = language;
    document.querySelector(`[name=mode][value=${language}]`).checked = true;
    names[language] = name ?? names[language];
    if (text !== undefined) {
        taken[language] = examples.find((it) => it.name === name && it.text === text)?.name ?? '';
    }
    machine.at = 0;
    if (text !== undefined) {
        editors[language].set(text);
    } else if (editors[language].text === '') {
        const first = examples.find((it) => it.name === `factorial.${EXTENSIONS[language]}`);
        return turnTo(language, first.text, first.name);
    }
    const listed = examples.filter((it) => isAssembly(it.text) === (language === 'tal'));
    $('example').replaceChildren(new Option('your own', ''), ...listed.map((it) => new Option(it.name)));
    choose(views[language]);
    return refresh();
}

// The name of a text: one that began as an example and is another by now is the visitor's own.
function nameOf(language) {
    const name = names[language], example = examples.find((it) => it.name === taken[language]);
    return example && name === example.name && editors[language].text !== example.text ? `my-${name}` : name;
}

// The text's name, and what it shows where it is an example as it stands.
function showName(text) {
    const example = examples.find((it) => it.name === names[mode] && it.text === text);
    $('name').textContent = nameOf(mode) || `program.${EXTENSIONS[mode]}`;
    $('example').value = example?.name ?? '';
    $('about').textContent = example?.about ?? '';
}

// Links and files

// Keeps the text in the fragment of the address, so that the address is a link to it, unless it is a long one.
async function keepLink(text, signal) {
    const packed = await through(text.slice(0, MOST_LINKED), new CompressionStream('deflate-raw')).arrayBuffer();
    const letters = Array.from(new Uint8Array(packed), (it) => String.fromCharCode(it));
    const given = new URLSearchParams({ name: nameOf(mode), text: btoa(letters.join('')) });
    if (!signal.aborted) {
        history.replaceState(null, '', text.length > MOST_LINKED ? '#' : `#${given}`);
    }
}

// The text that the address holds, if it does.
async function linked() {
    const given = new URLSearchParams(location.hash.slice(1));
    try {
        const bytes = Uint8Array.from(atob(given.get('text') ?? ''), (it) => it.charCodeAt(0));
        const text = bytes.length ? await through(bytes, new DecompressionStream('deflate-raw')).text() : '';
        return text ? { name: given.get('name') ?? '', text } : null;
    } catch {
        return { fault: 'The link is damaged: it holds no text.' };
    }
}

function through(bytes, stream) {
    return new Response(new Blob([bytes]).stream().pipeThrough(stream));
}

function save(text, name) {
    const href = URL.createObjectURL(new Blob([text]));
    Object.assign(document.createElement('a'), { href, download: name }).click();
    URL.revokeObjectURL(href);
}

// The page

function build() {
    editors.source = new Editor($('source-editor'), 'Source text', refresh);
    editors.tal = new Editor($('tal-editor'), 'Assembly text', refresh);
    for (const view of VIEWS) {
        TABS[view].onclick = () => choose(view);
        if (view !== 'all') {
            const template = $(view === 'machine' ? 'panel' : 'form').content;
            const article = articles[view] = template.firstElementChild.cloneNode(true);
            article.setAttribute('aria-labelledby', TABS[view].id);
            TABS[view].setAttribute('aria-controls', article.id = `view-${view}`);
            $('views').append(article);
            panes[view] = new Pane(article.querySelector('.text'));
        }
    }
    NATIVE.forEach((it) => (TABS[it].hidden = !commands.has('native')));
    for (const form of [...FORMS, ...NATIVE]) {
        const part = (name) => articles[form].querySelector(name);
        const named = () => `${nameOf(mode).replace(/\.\w+$/, '') || 'program'}.${EXTENSIONS[form] ?? `${form}.txt`}`;
        part('h2').textContent = TABS[form].firstChild.textContent;
        part('.about').textContent = TABS[form].title;
        part('.save').onclick = () => save(articles[form].text ?? '', named());
        part('.edit').hidden = form !== 'assembly';
        part('.edit').onclick = () => turnTo('tal', articles[form].text ?? '', named());
    }
    machine = new Machine(articles.machine, ask, attempt);
    document.querySelector('[role=tablist]').addEventListener('keydown', (event) => {
        const tabs = VIEWS.filter((it) => TABS[it].checkVisibility()), at = tabs.indexOf(views[mode]);
        const to = { ArrowRight: at + 1, ArrowLeft: at - 1 + tabs.length, Home: 0, End: tabs.length - 1 }[event.key];
        if (to !== undefined) {
            event.preventDefault();
            choose(tabs[to % tabs.length], true);
        }
    });
    document.querySelectorAll('[name=mode]').forEach((it) => it.addEventListener('change', () => turnTo(it.value)));
    $('example').onchange = () => {
        const found = examples.find((it) => it.name === $('example').value);
        turnTo(mode, found?.text, found?.name);
    };
    ['turns', 'fuel', 'registers'].forEach((it) => $(it).onchange = refresh);
    $('save').onclick = () => save(editors[mode].text, $('name').textContent);
    $('link').onclick = () => attempt(async () => {
        if (!location.hash) {
            throw new Error('The text is too long for a link: save it as a file.');
        }
        await navigator.clipboard.writeText(location.href);
        $('link').textContent = 'Copied';
        setTimeout(() => ($('link').textContent = 'Copy link'), 1500);
    });
    window.addEventListener('hashchange', async () => begin((await linked()) ?? {}));
    buildLooks();
}

// Light or dark, the size of letters, and the width of the editor, kept for the next visit.
function buildLooks() {
    const root = document.documentElement, splitter = $('splitter');
    const look = { theme: 'auto', size: 15, width: 40, ...JSON.parse(localStorage.getItem('look') ?? '{}') };
    const set = (changes) => {
        Object.assign(look, changes);
        localStorage.setItem('look', JSON.stringify(look));
        root.dataset.theme = look.theme;
        root.style.setProperty('--size', `${look.size}px`);
        root.style.setProperty('--width', `${look.width}%`);
        $('theme').lastElementChild.textContent = look.theme;
        splitter.setAttribute('aria-valuenow', Math.round(look.width));
    };
    const widen = (width) => set({ width: Math.max(20, Math.min(75, width)) });
    $('theme').onclick = () => set({ theme: { auto: 'light', light: 'dark', dark: 'auto' }[look.theme] });
    $('smaller').onclick = () => set({ size: Math.max(11, look.size - 1) });
    $('larger').onclick = () => set({ size: Math.min(28, look.size + 1) });
    splitter.onpointerdown = (event) => splitter.setPointerCapture(event.pointerId);
    splitter.onpointermove = (event) => {
        if (splitter.hasPointerCapture(event.pointerId)) {
            widen((100 * event.clientX) / root.clientWidth);
        }
    };
    splitter.onkeydown = (event) => widen(look.width + ({ ArrowLeft: -2, ArrowRight: 2 }[event.key] ?? 0));
    set({});
}

// Begins with this text, or where there is none with an example.
function begin({ text, name, fault }) {
    turnTo(isAssembly(text ?? '') ? 'tal' : 'source', text, name);
    notice(fault);
}

await attempt(async () => {
    const found = await post('start', '');
    learn(found.words);
    [examples, most, commands] = [found.examples, found.most, new Set(found.commands)];
    build();
    begin((await linked()) ?? found.file ?? found);
});
