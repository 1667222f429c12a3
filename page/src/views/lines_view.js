// The configurations of one side: the first few, and behind a button all of them, of which only those in view are drawn.
import {button, element, plural, replace} from './dom.js';

// Up to so many lines are shown at once; of more the first few, and a button for the rest.
const MOST_AT_ONCE = 22, FEW = 14, ROOM = 3000, DIRECT = 200, DIRECT_ROOM = 20000, SHOWN = 18, TALLEST = 8000000;

// A line of a problem, its labels marked so that they can be pointed at.
export function lineParts(line) {
    return [...line.matchAll(/\([A-Za-z0-9_]{1,16}\)|\^\d+|[A-Za-z0-9]|[[\]]|\s+|[^\s]/g)].map(([token]) => {
        if (token.startsWith('^')) return element('sup', {}, element('span.caret', {}, '^'), token.slice(1));
        if (token === '[' || token === ']') return element('span.bracket', {}, token);
        return /^[A-Za-z0-9(]/.test(token) ? element('span.label', {'data-label': token}, token) : token;
    });
}

const lineNode = line => element('div.line', {}, ...lineParts(line));

// The first lines of a text, without cutting all of it: so many, and no more past so many characters.
function firstLines(text, most, room) {
    const lines = [];
    for (let at = 0; at <= text.length && lines.length < most && at < room;) {
        const end = text.indexOf('\n', at);
        lines.push(text.slice(at, end < 0 ? text.length : end));
        at = end < 0 ? text.length + 1 : end + 1;
    }
    return lines;
}

export class LinesView {
    // `onDraw()` is told when lines were drawn.
    constructor(engine, name, onDraw) {
        Object.assign(this, {engine, name, onDraw});
        this.node = element('div.lines', {});
    }

    // A block of lines {text, count}; `nothing` stands for none.
    show({text, count}, nothing) {
        if (this.text === text) return;
        Object.assign(this, {text, count});
        if (!count) {
            replace(this.node, element('div.line.empty', {}, nothing));
            return;
        }
        // Groups that come in later leave open what was opened.
        if (this.isWhole) {
            this.showAll();
            return;
        }
        const lines = firstLines(text, count > MOST_AT_ONCE ? FEW : MOST_AT_ONCE, ROOM), rest = count - lines.length;
        replace(this.node, lines.map(lineNode), rest > 0 ? button(plural(rest, 'more line'), () => this.showAll(), {class: 'link'}) : null);
        this.onDraw();
    }

    async showAll() {
        this.isWhole = true;
        const {text} = this;
        if (this.count <= DIRECT && this.text.length <= DIRECT_ROOM) {
            replace(this.node, firstLines(this.text, DIRECT, DIRECT_ROOM).map(lineNode));
            this.onDraw();
            return;
        }
        const starts = await this.engine.work('lineStarts', text);
        if (text === this.text) this.window(starts);
    }

    // A box to scroll in, whose lines are drawn as they come into view.
    window(starts) {
        // A row is 1.375rem tall.
        const row = 1.375 * parseFloat(getComputedStyle(document.documentElement).fontSize);
        const {text, count} = this, full = count * row, tall = Math.min(full, TALLEST), height = SHOWN * row;
        const rows = element('div.rows', {}), space = element('div.space', {}, rows);
        const box = element('div.window', {tabIndex: 0, role: 'group', 'aria-label': `all ${count} lines, ${this.name}`}, space);
        space.style.height = `${tall}px`;
        box.style.height = `${height}px`;
        const draw = () => {
            // Browsers bound how tall a box may be, so of very many lines the bar moves in larger steps.
            const part = tall > height ? box.scrollTop / (tall - height) : 0, top = part * Math.max(0, full - height);
            const first = Math.max(0, Math.floor(top / row) - 4), last = Math.min(count, first + SHOWN + 9);
            rows.style.top = `${box.scrollTop + first * row - top}px`;
            replace(rows, Array.from({length: last - first}, (_, i) => lineNode(text.slice(starts[first + i], starts[first + i + 1] - 1))));
            this.onDraw();
        };
        box.addEventListener('scroll', draw);
        replace(this.node, box);
        draw();
        box.focus({preventScroll: true});
    }
}
