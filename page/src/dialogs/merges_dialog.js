// Tries all merges of two labels of a card, one after another: what is left, and whether it still helps a lower bound.
import {button, element, hint, plural, replace} from '../views/dom.js';
import {openWideDialog} from './dialogs.js';
import {numberOf, stagesOf} from '../cards/chains.js';
import {mapInput, pairLines, readStep} from '../texts/certificates.js';

const MOST_SHOWN = 200, SHOW_EACH = 5;

// Those first that come back to an earlier problem, then those that stay unsolvable the longest, with few labels.
const rank =
    row => [row.back ? 0 : 1, row.isSolvable ? 1 : 0, row.next?.isSolvable ? 1 : 0, row.next?.labels ?? 999, row.labels, row.configs];
function compare(a, b) {
    const [x, y] = [rank(a), rank(b)], at = x.findIndex((value, i) => value !== y[i]);
    return at < 0 ? 0 : x[at] - y[at];
}

export function openMergesDialog(bench, card, view) { new MergesDialog(bench, card, view).tryAll(); }

class MergesDialog {
    constructor(bench, card, view) {
        const {labels} = view.facts.problem;
        Object.assign(this, {bench, card, view, rows: [], path: bench.cards.path(card.id)});
        this.pairs = labels.flatMap((x, i) => labels.slice(i + 1).map(y => [x, y]));
        this.earlier = stagesOf(this.path).slice(0, -1).map(stage => stage.at(-1));
        this.state = element('div.state', {role: 'status', 'aria-label': 'state'});
        this.progress = element('span', {});
        this.table = element('tbody', {});
        this.ahead = element('input', {type: 'checkbox', checked: labels.length <= 12});
        this.stopButton = button('Stop', () => this.stop());
        this.dialog = openWideDialog(`Merges of two labels of problem ${view.number.textContent}`,
            element('div.group', {}, button('Try all', () => this.tryAll(), {class: 'primary', autofocus: true}),
                element('label', {}, this.ahead, 'and a step behind each')),
            this.state,
            element('div.tried', {tabIndex: 0, role: 'group', 'aria-label': 'merges that were tried'}, element('table', {}, this.table)));
        this.dialog.addEventListener('close', () => this.stop());
    }

    stop() {
        this.isStopped = true;
        this.job?.stop();
    }

    ask(words, text) {
        this.job = this.bench.engine.start('re', words, text, {title: `try merges: ${words.join(' ')}`});
        return this.job.answer;
    }

    work(...args) {
        this.job = this.bench.engine.startWork(args[0], args.slice(1), {title: 'try merges'});
        return this.job.answer;
    }

    async tryAll() {
        const turn = this.turn = {};
        this.isStopped = false;
        this.rows = [];
        replace(this.state, this.progress, ' ', this.stopButton);
        try {
            for (const [i, [x, y]] of this.pairs.entries()) {
                if (this.isStopped || turn !== this.turn) break;
                this.progress.textContent = `${i + 1} of ${this.pairs.length}`;
                this.rows.push(await this.tried(x, y));
                if (i % SHOW_EACH === SHOW_EACH - 1) this.show();
            }
        } catch (error) {
            if (!this.isStopped) this.table.append(element('tr', {}, element('td', {}, hint(error.message))));
        }
        if (turn !== this.turn) return;
        this.show();
        const good = this.rows.filter(row => !row.isSolvable).length;
        const tried = `${plural(this.rows.length, 'merge')} tried${this.isStopped ? ' (stopped)' : ''}`;
        replace(this.state, `${tried}: ${good} ${good === 1 ? 'leaves' : 'leave'} a problem that is not solvable in 0 rounds.`);
    }

    async isSolvable(text) { return (await this.ask(['zero'], text)).text.startsWith('yes'); }

    // Is it this problem under other names, by a renaming that `re rename` says yes to?
    async isRenamed(text, other) {
        const pairs = await this.work('findRenaming', text, other);
        return pairs !== null && (await this.ask(['rename'], mapInput(text, other, pairLines(pairs)))).text.trim() === 'yes';
    }

    // What is left when y becomes x.
    async tried(x, y) {
        const merged = await this.work('mapped', this.card.problem, [[y, x]]), {text} = await this.ask(['read'], merged);
        const {labels, active, passive} = await this.work('describe', text),
                               row = {x, y, labels: labels.length, configs: active.count + passive.count};
        row.isSolvable = await this.isSolvable(text);
        if (row.isSolvable) return row;
        for (const other of this.earlier)
            if (!row.back && await this.isRenamed(text, other.problem)) row.back = other;
        if (!this.ahead.checked) return row;
        const step = await this.ask(['step', '1'], text);
        if (step.status !== 0) return {...row, next: {limit: step.text.trim()}};
        const {meanings, problem} = readStep(step.text);
        return {...row, next: {labels: meanings.length, isSolvable: await this.isSolvable(problem)}};
    }

    show() { replace(this.table, this.rows.sort(compare).slice(0, MOST_SHOWN).map(row => this.rowNode(row))); }

    rowNode({x, y, back, isSolvable, labels, configs, next}) {
        const merge = () => {
            this.dialog.close();
            this.bench.changes.merge(this.card, this.view, [x, y], x);
        };
        const zero = isFit => `0 rounds: ${isFit ? 'yes' : 'no'}`;
        return element('tr', {class: isSolvable ? 'soft' : ''}, element('td', {}, button(`Merge ${y} into ${x}`, merge)),
            element('td', {}, back ? element('span.good', {}, `is problem ${numberOf(this.path, back)} again`) : zero(isSolvable)),
            element('td', {}, `${plural(labels, 'label')}, ${plural(configs, 'configuration')}`),
            element('td', {}, !next ? '' : next.limit || `then ${plural(next.labels, 'label')}, ${zero(next.isSolvable)}`));
    }
}
