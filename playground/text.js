// Texts on the page: how they are cut into tokens for colours and marks, panes that show them, and editors.
// What a text means is never decided here, but asked of the program.

const TOKEN = /--[^\n]*|[A-Za-z]\w*|~?\d+|->|:=|\s+|[^]/gu;
// In a listing of native code: a comment that is no word code; what stands before an instruction; words and numbers.
const LISTED = new RegExp([
    /^; [^\n]*/, /^ {2};/, /^ *[0-9a-f]+:\t[^\t\n]*\t/, /^[0-9a-f]{16} /,
    /L\d+(?:\.\d+\+?)?/, /[A-Za-z][\w.]*/, /0x[0-9a-f]+/, /\n+/, /[ \t]+/, /[^]/,
].map((it) => it.source).join('|'), 'gmu');
const LISTED_REGISTER = /^(?:w\d+|r\d+|r[abcd]x|r[sd]i|rbp)$/;
// Where labels are defined, in each language.
const DEFINED = {
    source: /(?!)/g, tal: /(\w+)\s*:\s*(?:code|data)\b/g, inner: /\b([LD]\d+)\s*:/g,
    listing: /^[0-9a-f]{16} <([^>\n]+)>/gm,
};
// A text is put on the page in parts of so many lines, of fewer where these are long. Of a long line so many characters
// have colours.
const PART_LINES = 50, PART_LENGTH = 10000;
// Of a longer text there are only the parts that are in sight, or as near to that as so many lines.
const MOST_WHOLE = 30000, AROUND = 40;
// So many characters of a text that is not typed are shown.
const MOST_SHOWN = 8000000;
// The kinds of tokens of which all that are alike are marked.
const NAMES = ['label', 'name', 'register'];
// The words of the languages with their kinds, as the files for editors have them, and those of the inner forms.
const words = { source: {}, tal: {}, inner: {} };

export function learn(found) {
    Object.assign(words.source, found.source);
    Object.assign(words.tal, found.tal);
    Object.assign(words.inner, found.tal, found.source, {
        closure: 'type', main: 'label', then: 'keyword', else: 'keyword',
    });
}

// Whether the first token, behind blanks and comments, is the word `tal`.
export function isAssembly(text) {
    return /^(?:[ \t\r\n]|--[^\n]*(?:\n|$))*tal(?![A-Za-z0-9_])/.test(text);
}

// Where a text defines labels: their names, and the places.
function outlineOf(text, language) {
    const found = [...text.matchAll(DEFINED[language])];
    return { labels: new Set(found.map((it) => it[1])), blocks: found.map((it) => it.index) };
}

// The tokens of a part of a text, which begins at a place of it, in order and without holes: text, start, end and kind.
export function cut(text, language, labels = outlineOf(text, language).labels, from = 0) {
    return Array.from(text.matchAll(language === 'listing' ? LISTED : TOKEN), (found) => {
        const [it] = found, start = from + found.index;
        return { text: it, start, end: start + it.length, kind: kindOf(it, language, labels) };
    });
}

function kindOfListed(it, labels) {
    if (/^\s+$/.test(it)) {
        return '';
    } else if (it.startsWith('; ')) {
        return 'comment';
    } else if (it.startsWith('0x')) {
        return 'number';
    } else if (labels.has(it)) {
        return 'label';
    } else if (LISTED_REGISTER.test(it)) {
        return 'register';
    } else if (['QWORD', 'PTR', 'ds'].includes(it)) {
        return 'type';
    }
    return /^[a-z]/.test(it) && !/\s/.test(it) ? 'instruction' : 'sign';
}

function kindOf(it, language, labels) {
    if (language === 'listing') {
        return kindOfListed(it, labels);
    } else if (/^\s/.test(it)) {
        return '';
    } else if (it.startsWith('--')) {
        return 'comment';
    } else if (/^~?\d/.test(it)) {
        return 'number';
    } else if (!/^[A-Za-z]/.test(it)) {
        return 'sign';
    } else if (Object.hasOwn(words[language], it)) {
        return words[language][it];
    } else if (labels.has(it) || (language === 'inner' && /^[LD]\d+$/.test(it))) {
        return 'label';
    }
    return language === 'tal' && /^r\d+$/.test(it) ? 'register' : 'name';
}

// The spans of tokens, to be put on the page.
export function spansOf(tokens) {
    const made = () => document.createElement('span');
    return tokens.map((it) => Object.assign(made(), { textContent: it.text, className: it.kind ?? '', token: it }));
}

// The places where the lines of a text begin.
function startsOf(text) {
    const starts = [0];
    for (let at = text.indexOf('\n'); at >= 0; at = text.indexOf('\n', at + 1)) {
        starts.push(at + 1);
    }
    return starts;
}

// How many of these numbers, which grow, are not above one.
function countUpTo(numbers, most) {
    let [low, high] = [0, numbers.length];
    while (low < high) {
        const middle = (low + high) >> 1;
        [low, high] = numbers[middle] <= most ? [middle + 1, high] : [low, middle];
    }
    return low;
}

// Not fewer columns than the widest line takes.
function columnsOf(text, starts) {
    const isPlain = !/[^ -~\n]/.test(text);
    const width = (line) => line.length + 3 * (line.match(/[^ -~\n]/g)?.length ?? 0);
    const ends = (index) => starts[index + 1] ?? text.length;
    const lengths = starts.map((it, index) => (isPlain ? ends(index) - it : width(text.slice(it, ends(index)))));
    return lengths.reduce((most, it) => Math.max(most, it), 0);
}

// The first lines of the parts of a text.
function partsOf(starts, length) {
    const firsts = [0];
    for (let line = 1; line < starts.length; line += 1) {
        const first = firsts.at(-1), end = starts[line + 1] ?? length;
        if (line - first >= PART_LINES || end - starts[first] > PART_LENGTH) {
            firsts.push(line);
        }
    }
    return firsts;
}

// A part of a column of a pane: its text, its first line, its number of lines, and where it begins in the whole text.
class Part {
    constructor(node) {
        Object.assign(this, { node, spans: null });
    }

    // Where it has this text already, it keeps its tokens, though what was typed before them may have moved them.
    set({ text, line, lines, start }) {
        const by = start - this.start;
        Object.assign(this, { line, start });
        if (this.text !== text || this.lines !== lines) {
            Object.assign(this, { text, lines });
            this.clear();
            this.node.style.setProperty('--lines', lines);
        } else if (by && this.spans) {
            this.spans.forEach(({ token }) => Object.assign(token, { start: token.start + by, end: token.end + by }));
        }
    }

    fill(spans) {
        this.spans = spans;
        this.node.replaceChildren(...spans);
    }

    clear() {
        if (this.spans) {
            this.spans = null;
            this.node.replaceChildren();
        }
    }
}

// Has a column consist of these texts.

function setParts(column, parts, texts) {
    while (parts.length < texts.length) {
        parts.push(new Part(column.appendChild(document.createElement('div'))));
    }
    parts.splice(texts.length).forEach((it) => it.node.remove());
    texts.forEach((it, index) => parts[index].set(it));
}

// A text with line numbers, colours and marks. A mark is a class that the tokens at a place have, or those alike.
export class Pane {
    constructor(root) {
        root.classList.add('pane');
        root.innerHTML = '<div class="lines"><pre class="gutter" aria-hidden="true"></pre><pre class="code"></pre>';
        this.lines = root.firstChild;
        [this.gutter, this.code] = this.lines.children;
        Object.assign(this, { root, numbers: [], parts: [], inSight: [] });
        this.show('', 'source');
        this.code.addEventListener('mouseover', (event) => this.markLike(event.target.token));
        this.code.addEventListener('mouseleave', () => this.markLike());
        root.addEventListener('scroll', () => this.look(), { passive: true });
        const observer = new ResizeObserver(() => this.look());
        [root, this.lines].forEach((it) => observer.observe(it));
    }

    show(text, language, most = MOST_SHOWN) {
        const shown = text.length > most ? text.slice(0, text.lastIndexOf('\n', most) + 1) : text;
        const more = (text.length - shown.length).toLocaleString('en');
        const { labels, blocks } = outlineOf(shown, language);
        // What kind of word one is may hang on a label that is defined elsewhere.
        if (this.language !== language || [...this.labels].join() !== [...labels].join()) {
            this.parts.forEach((it) => it.clear());
        }
        Object.assign(this, { text, language, labels, blocks, length: shown.length, marks: {}, like: null });
        this.starts = startsOf(shown);
        this.number(shown.endsWith('\n') ? this.starts.length - 1 : this.starts.length);
        // (in steps, since the browser lays out a field anew where its width changes)
        const columns = 40 * Math.ceil((columnsOf(shown, this.starts) + 1) / 40);
        const digits = String(this.starts.length).length, rows = this.starts.length + (more === '0' ? 0 : 1);
        for (const [name, size] of Object.entries({ columns, digits, rows })) {
            this.lines.style.setProperty(`--${name}`, size);
        }
        // One space more, to have a place for what is missing at the end.
        this.divide(more === '0' ? `${shown} ` : `${shown} \n… and ${more} more characters`);
        this.look();
    }

    // Has the parts consist of this text.
    divide(text) {
        const starts = startsOf(text), firsts = partsOf(starts, text.length);
        const texts = firsts.map((line, index) => {
            const next = firsts[index + 1] ?? starts.length;
            return { line, lines: next - line, start: starts[line], text: text.slice(starts[line], starts[next]) };
        });
        setParts(this.code, this.parts, texts);
    }

    // The numbers of so many lines.
    number(lines) {
        const texts = Array.from({ length: Math.ceil(lines / PART_LINES) }, (_, part) => {
            const line = part * PART_LINES, length = Math.min(PART_LINES, lines - line);
            return { line, lines: length, text: Array.from({ length }, (_, index) => line + index + 1).join('\n') };
        });
        setParts(this.gutter, this.numbers, texts);
    }

    // Shows the parts in sight, with colours and marks, and what stands near; what is selected stays though it is not.
    look() {
        const height = parseFloat(getComputedStyle(this.code).lineHeight);
        const first = this.root.scrollTop / height - AROUND;
        const last = first + this.root.clientHeight / height + 2 * AROUND;
        const isWhole = this.length <= MOST_WHOLE, isHidden = this.root.clientHeight === 0;
        const isNear = (it) => isWhole || (!isHidden && it.line + it.lines > first && it.line < last);
        if (getSelection().isCollapsed) {
            [...this.parts, ...this.numbers].filter((it) => it.spans && !isNear(it)).forEach((it) => it.clear());
        }
        this.numbers.filter((it) => !it.spans && isNear(it)).forEach((it) => it.fill(spansOf([{ text: it.text }])));
        this.inSight = this.parts.filter(isNear);
        this.inSight.forEach((it) => this.paint(it));
    }

    // Gives a part its colours, where it has none, and its marks.
    paint(part) {
        if (!part.spans) {
            part.fill(spansOf(this.tokensOf(part)));
        }
        const marks = Object.entries(this.marks);
        for (const it of part.spans) {
            const here = marks.filter(([, { start, end }]) => it.token.end > start && it.token.start < end);
            const classes = [it.token.kind, ...here.map(([name]) => name), this.isLike(it.token) ? 'like' : ''];
            const joined = classes.filter((name) => name).join(' ');
            if (it.className !== joined) {
                it.className = joined;
            }
        }
    }

    // The tokens of a part; of one that is long, what stands behind its beginning is cut by the marks alone.
    tokensOf(part) {
        const from = part.start, end = from + part.text.length;
        const last = Math.max(from, Math.min(end, this.length));
        const short = Math.min(last, from + PART_LENGTH);
        const tokens = cut(this.text.slice(from, short), this.language, this.labels, from);
        const bounds = Object.values(this.marks).flatMap((it) => [it.start, it.end]);
        const inner = bounds.filter((it) => it > short && it < last);
        const places = [...new Set([short, last, ...inner])].sort((a, b) => a - b);
        places.slice(1).forEach((it, index) => (
            tokens.push({ text: this.text.slice(places[index], it), start: places[index], end: it, kind: '' })));
        return last < end ? [...tokens, { text: part.text.slice(last - from), start: last, end, kind: '' }] : tokens;
    }

    // Whether a token is marked as one that is like the one that is pointed at: labels anywhere, others within a block.
    isLike(it) {
        const { text, kind, block } = this.like ?? {};
        return it.text === text && it.kind === kind && (kind === 'label' || countUpTo(this.blocks, it.start) === block);
    }

    // Marks all names that are as this token.
    markLike(token) {
        const isName = token && NAMES.includes(token.kind);
        const like = isName ? { ...token, block: countUpTo(this.blocks, token.start) } : null;
        if (like?.start !== this.like?.start || like?.text !== this.like?.text) {
            this.like = like;
            this.inSight.forEach((it) => this.paint(it));
        }
    }

    // Marks what stands from start to end, or what stands at start where that is nothing; without a start, nothing.
    mark(name, start, end) {
        delete this.marks[name];
        if (start !== undefined) {
            this.marks[name] = { start, end: Math.max(end, start + 1) };
        }
        this.parts.filter((it) => it.text.length > PART_LENGTH).forEach((it) => it.clear());
        this.inSight.forEach((it) => this.paint(it));
    }

    // Brings what is marked into sight, with some room around it.
    reveal(name) {
        if (!this.marks[name] || !this.root.clientHeight) {
            return;
        }
        const line = countUpTo(this.starts, this.marks[name].start) - 1;
        const part = this.parts.findLast((it) => it.line <= line), height = part.node.clientHeight / part.lines;
        const view = this.root.getBoundingClientRect();
        const top = part.node.getBoundingClientRect().top + (line - part.line) * height;
        if (top < view.top + 20 || top + height > view.bottom - 40) {
            this.root.scrollTop += top - view.top - view.height / 3;
            this.look();
        }
    }
}

// A pane whose text is typed: a field without colours of its own lies over it, and both scroll as one.
export class Editor extends Pane {
    constructor(root, label, changed) {
        super(root);
        this.field = document.createElement('textarea');
        Object.assign(this.field, { spellcheck: false, autocomplete: 'off', autocapitalize: 'off', wrap: 'off' });
        this.field.setAttribute('aria-label', label);
        this.field.setAttribute('aria-describedby', 'explained');
        this.lines.append(this.field);
        this.code.setAttribute('aria-hidden', 'true');
        let timer;
        this.field.addEventListener('input', () => {
            this.showField();
            clearTimeout(timer);
            timer = setTimeout(changed, this.text.length > 50000 ? 900 : 250);
        });
        document.addEventListener('selectionchange', () => this.markAtCaret());
        this.field.addEventListener('blur', () => this.markLike());
    }

    showField() {
        this.show(this.field.value, isAssembly(this.field.value) ? 'tal' : 'source', Infinity);
        this.markAtCaret();
    }

    set(text) {
        this.field.value = text;
        this.showField();
        this.root.scrollTo(0, 0);
    }

    markAtCaret() {
        if (document.activeElement === this.field) {
            const at = this.field.selectionStart;
            const part = this.inSight.find((it) => it.start <= at && at <= it.start + it.text.length);
            const found = part?.spans.find(({ token }) => token.end >= at && NAMES.includes(token.kind));
            this.markLike(found && found.token.start <= at ? found.token : undefined);
        }
    }
}

// The place in a text, in characters, of a place in bytes of its UTF-8.
export function placeOf(text, byte) {
    const bytes = new TextEncoder().encode(text);
    const decoder = new TextDecoder('utf-8', { ignoreBOM: true });
    return bytes.length === text.length ? byte : decoder.decode(bytes.subarray(0, byte)).length;
}
