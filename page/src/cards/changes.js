// Steps and changes of a problem: commands of the program, and the cards that come of them.
import {mapInput, pairLines, readStep} from '../texts/certificates.js';
import {filledLines} from '../texts/texts.js';
import {blockOf, mappedLines, problemText, SIDES} from '../texts/problems.js';
import {openEditDialog} from '../dialogs/edit_dialog.js';
import {openMergesDialog} from '../dialogs/merges_dialog.js';
import {openRenameDialog} from '../dialogs/rename_dialog.js';

// The program reads no more bytes than these.
const MOST_BYTES = 16777216;
// So many images are tried when a map is looked for.
const MOST_TRIES = 200000;

// The restriction to some labels.
const kept = labels => Object.fromEntries(labels.map(label => [label, [label]]));

export class Changes {
    constructor(workbench) { this.workbench = workbench; }

    rename(card, view) { openRenameDialog(this.workbench, card, view); }
    edit(card, view) { openEditDialog(this.workbench, card, view); }
    tryMerges(card, view) { openMergesDialog(this.workbench, card, view); }

    // The canonical text of what JavaScript has put together, or null.
    async canonical(view, text, title) {
        const answer = text && await this.workbench.ask(view, ['read'], text, title);
        if (!answer) return null;
        if (answer.status !== 0) {
            view.complain(answer.text.trim());
            return null;
        }
        return answer.text;
    }

    // Asked again while they run, these make one card.
    step(card, view) { return this.once(view, 'step', () => this.takeStep(card, view)); }
    merge(card, view, labels, to) { return this.once(view, `merge ${labels} ${to}`, () => this.makeMerge(card, view, labels, to)); }
    addArrow(card, view, side, weak, strong) {
        return this.once(view, `arrow ${side} ${weak} ${strong}`, () => this.makeArrow(card, view, side, weak, strong));
    }
    leaveOut(card, view, labels) { return this.once(view, `leave out ${labels}`, () => this.makeWithout(card, view, labels)); }
    mergeEqual(card, view) {
        return this.once(view, 'merge equal',
            () => this.simplify(card, view, 'merge', 'equal labels merged', 'no two labels are equally strong on both sides'));
    }
    reduce(card, view) {
        return this.once(
            view, 'reduce', () => this.simplify(card, view, 'reduce', 'reduced', 'no map of the problem into itself leaves labels out'));
    }
    trim(card, view) { return this.once(view, 'trim', () => this.simplify(card, view, 'trim', 'trimmed', 'no label covers another one')); }

    async once(view, what, run) {
        if (view.running.has(what)) return;
        view.running.add(what);
        try {
            await run();
        } finally { view.running.delete(what); }
    }

    async takeStep(card, view) {
        const {workbench} = this,
              answer = await workbench.ask(view, ['step', '1'], card.problem, `step of problem ${view.number.textContent}`);
        if (!answer) return;
        const {meanings, problem} = answer.status === 0 ? readStep(answer.text) : {problem: ''};
        if (answer.status !== 0 || problem.length > MOST_BYTES) {
            view.complain(answer.status !== 0 ? answer.text.trim() : 'The derived problem is larger than a text that the program reads.');
            view.noteHint('Merge labels first (click two of them), or trim: a smaller problem has a smaller derived problem.');
            return;
        }
        const rows = await workbench.ask(view, ['universal'], card.problem, 'universal rows');
        if (!rows) return;
        if (rows.status !== 0) {
            view.complain(rows.text.trim());
            return;
        }
        await workbench.append(card, {kind: 'step', problem, meanings, rows: filledLines(rows.text)});
    }

    async universal(card, view) {
        const answer = await this.workbench.ask(view, ['universal'], card.problem, 'universal rows');
        if (!answer) return;
        const count = filledLines(answer.text).length;
        if (answer.status !== 0) view.complain(answer.text.trim());
        else view.note({kind: 'text', what: `${count} maximal ${count === 1 ? 'row' : 'rows'} of the passive side`, text: answer.text});
    }

    // A relaxation by a map of labels, after `re relax` said yes. Two problems written out may be more than it reads, so they
    // are given as they were written, where they were.
    async relaxTo(card, problem, pairs, title, written) {
        const {workbench} = this, view = workbench.view(card);
        const textOf = (text, lines) => lines ? problemText(view.facts.problem, blockOf(lines.active), blockOf(lines.passive)) : text;
        const answer = await workbench.ask(
            view, ['relax'], mapInput(textOf(card.problem, card.written), textOf(problem, written), pairLines(pairs)), title);
        if (!answer) return null;
        if (answer.text.trim() !== 'yes') {
            view.complain(`re relax: ${answer.text.trim()}`);
            return null;
        }
        return workbench.append(card, {kind: 'change', title, problem, relax: Object.fromEntries(pairs), written});
    }

    async makeMerge(card, view, labels, to) {
        const pairs = view.facts.problem.labels.map(label => [label, labels.includes(label) ? to : label]);
        const title = `merged ${labels.filter(label => label !== to).join(', ')} into ${to}`;
        // A large problem is merged as it was written.
        const written = view.facts.isLarge && card.written ? mappedLines(card.written, pairs) : undefined;
        const byLines = () => problemText(view.facts.problem, blockOf(written.active), blockOf(written.passive));
        const made = written ? byLines() : await this.workbench.work(view, title, 'mapped', card.problem, pairs);
        const text = await this.canonical(view, made, title);
        if (text) await this.relaxTo(card, text, pairs, title, written);
    }

    // Whether `explore merge` takes a chain without steps, asked on a small problem.
    async canMergeFirst() {
        const {engine, words} = this.workbench;
        return words.has('merge') &&
            (await engine.ask('explore', ['merge', 'A', 'B'], 'A B\n\nA B\n', {quiet: true})).text.startsWith('==');
    }

    // A merge in the first problem, with the step behind it.
    mergeFirst(card, view, from, to) {
        const {searches} = this.workbench, what = `merge ${from} ${to}`;
        return this.once(view, what, () => searches.inTask(card, view, what, async task => {
            const answer = await task.ask('explore', ['merge', from, to], card.problem);
            await searches.tried(view, task, what, answer);
            if (!answer.text.startsWith('==')) return null;
            return {
                what,
                certificate: answer.text,
                cards: await searches.cardsOf(answer.text, {title: `${from} merged into ${to} before it`})
            };
        }));
    }

    async makeArrow(card, view, side, weak, strong) {
        const title = `${side}: ${strong} may replace ${weak}`;
        const text =
            await this.canonical(view, await this.workbench.work(view, title, 'withArrow', card.problem, side, weak, strong), title);
        if (text) await this.relaxTo(card, text, view.facts.problem.labels.map(label => [label, label]), title);
    }

    async makeWithout(card, view, labels) {
        const {workbench} = this, title = `without ${labels.join(', ')}`;
        const text = await this.canonical(view, await workbench.work(view, title, 'without', card.problem, labels), title);
        if (!text) return;
        const left = (await workbench.facts.learn(text)).problem.labels;
        // Labels that stand in no configuration any more go with them.
        const gone = view.facts.problem.labels.filter(label => !left.includes(label));
        await workbench.append(card, {kind: 'change', title: `without ${gone.join(', ')}`, problem: text, restrict: kept(left)});
    }

    // `re merge`, `re trim` and `explore reduce` leave the problem as hard as it is.
    async simplify(card, view, word, title, nothing) {
        const {workbench} = this, program = word === 'reduce' ? 'explore' : 're';
        const answer = await workbench.noted(view, word, workbench.engine.start(program, [word], card.problem, {title: word}));
        if (!answer) return;
        if (answer.status !== 0) {
            view.complain(answer.text.trim());
            return;
        }
        if (answer.text === card.problem) {
            view.noteHint(`${program} ${word}: ${nothing}.`);
            return;
        }
        const {labels} = view.facts.problem, left = (await workbench.facts.learn(answer.text)).problem.labels;
        const pairs = await this.mapOnto(card, view, answer.text, left, word === 'reduce');
        const gone =
            pairs ? pairs.filter(([from, to]) => from !== to).map(pair => pair.join('→')) : labels.filter(label => !left.includes(label));
        let relax;
        if (pairs) {
            const judged = await workbench.ask(view, ['relax'], mapInput(card.problem, answer.text, pairLines(pairs)));
            if (judged?.text.trim() === 'yes') relax = Object.fromEntries(pairs);
        }
        await workbench.append(
            card, {kind: 'change', title: `${title} (${gone.join(' ')})`, problem: answer.text, relax, restrict: kept(left)});
    }

    // Where the labels go in what is left of a problem, each that stays to itself: to a covering label, or as a map that is looked for
    // sends them. Null where none is found.
    async mapOnto(card, view, text, left, isByMap) {
        const {labels} = view.facts.problem;
        if (isByMap) {
            const pairs = await this.workbench.work(view, 'a map to it', 'findRelaxation', card.problem, text, MOST_TRIES);
            // The labels that stay may be moved among each other: the map is followed by the way back.
            const image = new Map(pairs || []), back = new Map(left.map(label => [image.get(label), label]));
            return pairs && back.size === left.length ? labels.map(label => [label, back.get(image.get(label))]) : null;
        }
        await Promise.all(SIDES.map(side => view.diagrams[side].learn()));
        const covers = (label, by) => SIDES.every(side => view.isStronger(side, label, by));
        const pairs = labels.map(label => [label, left.includes(label) ? label : left.find(by => covers(label, by))]);
        return pairs.every(([, to]) => to) ? pairs : null;
    }

    async renamed(card, view, pairs) {
        const made = await this.underNames(card, view, pairs);
        if (made) await this.workbench.append(card, made);
    }

    // The card of the same problem under other names, after `re rename` said yes; else null.
    async underNames(card, view, pairs) {
        const {workbench} = this, text = await this.canonical(view, await workbench.work(view, 'rename', 'mapped', card.problem, pairs));
        if (!text) return null;
        const answer = await workbench.ask(view, ['rename'], mapInput(card.problem, text, pairLines(pairs)));
        if (!answer) return null;
        if (answer.text.trim() !== 'yes') {
            view.complain(`re rename: ${answer.text.trim()}`);
            return null;
        }
        const moved = pairs.filter(([from, to]) => from !== to).map(pair => pair.join('→'));
        return {
            kind: 'change',
            title: `renamed ${moved.slice(0, 5).join(' ')}${moved.length > 5 ? ' …' : ''}`,
            problem: text,
            relax: Object.fromEntries(pairs),
            restrict: Object.fromEntries(pairs.map(([from, to]) => [to, [from]]))
        };
    }
}
