// The machine, step by step: states from `trace`, fetched in windows, beside the text whose instructions they are at.

import { cut, spansOf } from './text.js';

// So many states are fetched at a time; so many of them stand before the one that is asked for.
const WINDOW = 400, BEFORE = 50;
// Up to so many steps, in lines of so many characters together, the heap is told: it is followed from the start on.
const MOST_FOLLOWED = 5000, MOST_READ = 4000000;
// Where a block or datum begins, but for what a comment says.
const DEFINITION = /--[^\n]*|(\w+)(?:\s|--[^\n]*\n)*:(?:\s|--[^\n]*\n)*(code|data)\b/g;

// The blocks of a text in order: the label of each, and its start and end.
function blocksOf(text) {
    const found = [...text.matchAll(DEFINITION)].filter((it) => it[1]);
    const all = found.map((it, index) => (
        { label: it[1], isCode: it[2] === 'code', start: it.index, end: found[index + 1]?.index ?? text.length }));
    return all.filter((it) => it.isCode);
}

// Where each instruction of a block stands: its start and its end.
function placesOf(text, block) {
    const found = cut(text.slice(block.start, block.end), 'tal', new Set(), block.start);
    const places = [];
    for (const it of found.filter(({ kind }) => kind !== '' && kind !== 'comment')) {
        if (it.kind === 'instruction') {
            places.push([it.start, it.end]);
        } else if (places.length) {
            places.at(-1)[1] = it.end;
        }
    }
    return places;
}

// The tuples of data of a text in order, each a row of words: what the heap has at the start.
function dataOf(text) {
    const found = [...text.matchAll(DEFINITION)].filter((it) => it[1]);
    const blocks = found.filter((it) => it[2] === 'code').map((it) => it[1]);
    const data = found.filter((it) => it[2] === 'data').map((it) => it[1]);
    const wordOf = (it) => (
        blocks.includes(it) ? `L${blocks.indexOf(it)}` : data.includes(it) ? `@${data.indexOf(it)}` : it);
    const isCode = ({ kind }) => kind !== '' && kind !== 'comment';
    return found.filter((it) => it[2] === 'data').map((it, index, all) => {
        const end = all[index + 1]?.index ?? text.length;
        const tokens = cut(text.slice(it.index, end), 'tal', new Set()).filter(isCode);
        const fields = [];
        // A field begins behind `<` or `,` of the tuple itself; its word is the first token that is no `pack [ T ,`.
        let depth = 0, packs = 0, isAt = false;
        for (const { text: word } of tokens.slice(3)) {
            if (isAt && word === 'pack') {
                packs += 1;
                isAt = false;
            } else if (isAt && word !== '>') {
                fields.push(wordOf(word));
                isAt = false;
                packs = 0;
            }
            depth += '<[{'.includes(word) ? 1 : '>]}'.includes(word) ? -1 : 0;
            if (depth === 0) {
                break;
            }
            isAt ||= (depth === 1 && (word === '<' || word === ',')) || (packs > 0 && word === ',' && depth === 1 + packs);
        }
        return fields;
    });
}

// A line of `trace`: the number of steps, the block, the instruction, and the registers with words and types.
function stateOf(line) {
    const [, step, block, at, rest] = /^(\d+) b(\d+)\.(\d+) \{(.*)\}$/.exec(line);
    const registers = [];
    // The commas between registers are those outside of all brackets.
    let depth = 0;
    const parts = rest.replace(/[[{<]|[\]}>]|, /g, (it) => {
        depth += it === ', ' ? 0 : '[{<'.includes(it) ? 1 : -1;
        return it === ', ' && depth === 0 ? '\n' : it;
    });
    for (const part of rest ? parts.split('\n') : []) {
        const [, name, word, type] = /^(r\d+)=([^:]*):(.*)$/.exec(part);
        registers.push({ name, word, type });
    }
    return { step: Number(step), block: Number(block), at: Number(at), registers };
}

// How many fields a tuple of this type has, if it shows: those between the commas outside of all brackets.
function fieldsOf(type) {
    const inner = /^<(.+)>$/.exec(type.replace(/^(some \w+\. )+/, ''))?.[1];
    let depth = 0, count = inner ? 1 : 0;
    for (const it of inner ?? '') {
        depth += '[{<'.includes(it) ? 1 : ']}>'.includes(it) ? -1 : 0;
        count += it === ',' && depth === 0 ? 1 : 0;
    }
    return count;
}

export class Machine {
    constructor(root, ask, attempt) {
        Object.assign(this, { root, ask, attempt, states: [], at: 0, timer: 0, wanted: 0 });
        const parts = [...root.querySelectorAll('[data-part]')].map((it) => [it.dataset.part, it]);
        const { slider, jump, play, first, back, step, last } = this.parts = Object.fromEntries(parts);
        first.onclick = () => this.go(0);
        back.onclick = () => this.go(this.at - 1);
        step.onclick = () => this.go(this.at + 1);
        last.onclick = () => this.go(this.last);
        play.onclick = () => (this.timer ? this.pause() : this.play());
        slider.oninput = jump.onchange = (event) => this.go(Number(event.target.value));
        root.addEventListener('keydown', (event) => {
            const keys = { ArrowLeft: this.at - 1, ArrowRight: this.at + 1, Home: 0, End: this.last };
            if (event.key in keys && event.target.tagName !== 'INPUT' && event.target.tagName !== 'SELECT') {
                event.preventDefault();
                this.go(keys[event.key]);
            }
        });
    }

    // Begins anew with a text that is accepted. `last` is the state of its end, or the budget where it goes on.
    load(text, pane, last, ends, signal) {
        this.pause();
        Object.assign(this, { text, pane, last, ends, signal, states: [], followed: null, data: null });
        this.opened = new Set();
        this.blocks = blocksOf(text);
        this.parts.slider.max = this.parts.jump.max = last;
        this.parts.of.textContent = `of ${last.toLocaleString('en')}${ends ? '' : '+'}`;
        return this.go(Math.min(this.at, last));
    }

    // Where nothing is accepted there is nothing to show.
    clear(why) {
        this.pause();
        this.pane?.mark('now');
        this.pane = null;
        this.parts.registers.replaceChildren();
        this.parts.says.textContent = why;
    }

    go(step) {
        return this.pane && !Number.isNaN(step) ? this.attempt(() => this.goTo(step)) : null;
    }

    async goTo(step) {
        const to = Math.max(0, Math.min(Math.trunc(step), this.last)), ours = (this.wanted += 1);
        this.at = to;
        this.parts.slider.value = this.parts.jump.value = to;
        if (!this.stateAt(to) || (to > 0 && !this.stateAt(to - 1))) {
            const from = Math.max(0, to - BEFORE);
            const given = { from, to: Math.min(this.last, from + WINDOW) };
            const found = await this.ask('trace', given, this.text, this.signal);
            if (ours !== this.wanted) {
                return;
            } else if (found.status !== 0 && found.status !== 4) {
                this.clear(found.said);
                return;
            }
            const lines = found.said.split('\n');
            this.result = lines.pop();
            this.states = lines.map(stateOf);
        }
        const heap = this.opened.size ? await this.heapAt(to) : null;
        if (ours === this.wanted) {
            this.draw(this.stateAt(to), this.stateAt(to - 1), heap);
        }
    }

    // The instruction that a state is at: its tokens.
    instructionAt(state) {
        const block = this.blocks[state.block] ?? {};
        const places = block.places ??= 'start' in block ? placesOf(this.text, block) : [];
        const [start, end] = places[state.at] ?? [0, 0];
        block.tokens ??= [];
        return block.tokens[state.at] ??= cut(this.text.slice(start, end), 'tal', new Set())
            .filter(({ kind }) => kind !== '' && kind !== 'comment').map((it) => it.text);
    }

    // The words of the tuples at a step, by their addresses: what the instructions up to there have stored. Nothing
    // where that is too far from the start.
    async heapAt(step) {
        if (step > MOST_FOLLOWED) {
            return null;
        }
        if (!this.followed || this.followed.length <= step) {
            const given = { from: 0, to: Math.min(this.last, step + WINDOW) };
            const found = await this.ask('trace', given, this.text, this.signal);
            if (found.said.length > MOST_READ) {
                return null;
            }
            this.followed = found.said.split('\n').filter((it) => /^\d+ b/.test(it)).map(stateOf);
        }
        this.data ??= dataOf(this.text);
        const heap = new Map(this.data.map((it, index) => [`@${index}`, [...it]]));
        for (const state of this.followed.slice(0, step)) {
            const [name, to, sign, at, , , from] = this.instructionAt(state);
            if (name === 'st' && sign === '[') {
                const numberOf = (it) => Number(it.slice(1));
                const wordOf = (it) => state.registers.find((one) => numberOf(one.name) === numberOf(it))?.word;
                const address = wordOf(to);
                heap.set(address, heap.get(address) ?? []);
                heap.get(address)[Number(at)] = wordOf(from);
            }
        }
        return heap;
    }

    // The word of a register or a field: an address is a button that opens the tuple.
    wordOf(word, type, heap, path) {
        const block = /^L(\d+)$/.exec(word), label = block && this.blocks[block[1]]?.label;
        const node = document.createElement('span');
        node.dataset.word = node.textContent = word;
        if (label && label !== word) {
            node.append(Object.assign(document.createElement('small'), { textContent: ` ${label}` }));
        }
        if (!/^@\d+$/.test(word) || path.length > 20) {
            return node;
        }
        const key = path.join(' '), button = document.createElement('button');
        Object.assign(button, { textContent: word, title: 'What is in this tuple' });
        button.setAttribute('aria-expanded', this.opened.has(key));
        button.onclick = async () => {
            this.opened.has(key) ? this.opened.delete(key) : this.opened.add(key);
            await this.go(this.at);
            this.root.querySelector(`[data-path="${key}"]`)?.focus();
        };
        button.dataset.path = key;
        node.replaceChildren(button);
        if (this.opened.has(key)) {
            const list = document.createElement('ol'), fields = heap?.get(word);
            const count = Math.max(fields?.length ?? 0, fieldsOf(type));
            for (let at = 0; at < count; at += 1) {
                const row = document.createElement('li');
                const known = fields?.[at];
                row.append(`${at}: `, known === undefined ? (heap ? 'nothing yet' : 'not followed so far from the start')
                    : this.wordOf(known, '', heap, [...path, at]));
                list.append(row);
            }
            node.append(count ? list : Object.assign(document.createElement('small'), { textContent: ' no fields' }));
        }
        return node;
    }

    stateAt(step) {
        return this.states[step - this.states[0]?.step];
    }

    draw(state, before, heap) {
        const block = this.blocks[state.block] ?? {};
        const places = block.places ??= 'start' in block ? placesOf(this.text, block) : [];
        const [start, end] = places[state.at] ?? [];
        this.pane.mark('now', start, end);
        this.pane.reveal('now');
        this.parts.says.textContent = this.ends && state.step === this.last ? `halted: ${this.result}`
            : `${block.label ?? `b${state.block}`}, instruction ${state.at + 1} of ${places.length || '?'}`;
        const known = new Map((before ?? state).registers.map((it) => [it.name, it]));
        this.parts.registers.replaceChildren(...state.registers.map((it) => this.rowOf(it, known.get(it.name), heap)));
    }

    // A row of the table. What differs from the state before is marked.
    rowOf(register, before, heap) {
        const row = document.createElement('tr');
        const cells = [register.name, register.word, register.type].map(() => row.insertCell());
        cells[0].textContent = register.name;
        cells[1].append(this.wordOf(register.word, register.type, heap, [register.name]));
        cells[2].append(...spansOf(cut(register.type, 'tal')));
        cells[1].classList.toggle('changed', register.word !== before?.word);
        cells[2].classList.toggle('changed', register.type !== before?.type);
        return row;
    }

    play() {
        if (this.at >= this.last) {
            this.at = 0;
        }
        this.parts.play.setAttribute('aria-pressed', 'true');
        // Above 50 steps a second several are made at a time.
        const speed = Number(this.parts.speed.value), each = Math.max(1, Math.round(speed / 50));
        const next = async () => {
            await this.go(this.at + each);
            if (this.timer && this.at < this.last) {
                this.timer = setTimeout(next, (1000 * each) / speed);
            } else {
                this.pause();
            }
        };
        this.timer = setTimeout(next, 0);
    }

    pause() {
        clearTimeout(this.timer);
        this.timer = 0;
        this.parts.play.setAttribute('aria-pressed', 'false');
    }
}
