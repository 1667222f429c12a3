// Free edits of a problem: a relaxation (a map of labels, or an image of each configuration) or a restriction.
import {button, element, faulty, hint, replace} from '../views/dom.js';
import {Editor} from './editor.js';
import {openWideDialog} from './dialogs.js';
import {DONE, keepDraft} from '../keeping/drafts.js';
import {chainBefore, startBridge} from '../cards/bridges.js';
import {stagesOf} from '../cards/chains.js';
import {describe, sideText} from '../texts/problems.js';
import {faultLine, mapInput, pairLines} from '../texts/certificates.js';
import {NumberedArea} from './numbered_area.js';
import {filledLines, filledRows, itemsOf, labelsIn, setText, sortedSet} from '../texts/texts.js';
import {writtenText} from '../engine/judge.js';

const MODES = {
    relax: {name: 'Relaxation, by labels', help: 'For lower bounds. One line for each label: the label and the label it becomes.'},
    rows: {
        name: 'Relaxation, by rows',
        help: 'For lower bounds. One line for each active configuration: it, then | and its image, place by place.'
    },
    restrict: {
        name: 'Restriction',
        help: 'For upper bounds. One line for each label of the new problem: the label and the set of labels of this problem it stands for.'
    },
};

// A first guess of the map from the lines that stand there; `to` are the labels of the new problem.
function guessedMap(mode, problem, canonical, to, lines) {
    if (mode === 'rows') return filledLines(sideText(canonical, 'active')).map(line => `${line} | ${line}`);
    if (mode === 'restrict')
        return (to || problem.labels).map(label => `${label} ${problem.labels.includes(label) ? setText([label]) : '[]'}`);
    const has = label => !to || to.includes(label), known = new Map(lines.map(labelsIn).filter(pair => pair.length === 2));
    const image = label => [known.get(label), label].find(other => other !== undefined && has(other)) ?? to[0];
    return problem.labels.map(label => `${label} ${image(label)}`);
}

// The map as a card keeps it, or null where it has no such form.
function readMap(mode, lines, degree) {
    if (mode === 'relax') {
        const pairs = lines.map(labelsIn);
        return pairs.every(pair => pair.length === 2) ? {relax: Object.fromEntries(pairs)} : null;
    }
    if (mode === 'restrict') {
        const entries = lines.map(itemsOf);
        if (!entries.every(items => items?.length === 2)) return null;
        return {restrict: Object.fromEntries(entries.map(([label, set]) => [label.labels[0], sortedSet(set.labels)]))};
    }
    const labelsOf = text => itemsOf(text)?.flatMap(item => Array(item.power).fill(item.labels[0]));
    const images = lines.map(line => line.split('|').map(labelsOf));
    return images.every(pair => pair.length === 2 && pair.every(labels => labels?.length === degree)) ? {images} : null;
}

export async function openEditDialog(bench, card, view) {
    if (view.facts.isLarge) {
        view.complain('The problem is too large to be edited: merge labels first.');
        return;
    }
    const dialog = new EditDialog(bench, card, view);
    await dialog.editor.setText(await writtenText(bench.facts, card));
    keepDraft(dialog.dialog, `edit ${card.id} ${card.problem}`);
    if (dialog.dialog.open && !dialog.dialog.contains(document.activeElement)) dialog.editor.focus();
}

class EditDialog {
    constructor(bench, card, view) {
        Object.assign(this, {bench, card, view, mode: 'relax', isTouched: false, problem: view.facts.problem});
        this.map = new NumberedArea({
            label: 'map',
            fewest: 8,
            most: 8,
            onInput: () => {
                this.isTouched = true;
                this.judge();
            }
        });
        this.help = element('span', {});
        this.state = element('div.state', {role: 'status', 'aria-label': 'what the program says'});
        this.editor = new Editor(bench.engine, {onRead: () => this.isTouched ? this.judge() : this.suggest()});
        // Where `explore` has the word, it looks for a whole step from the problem before; else the page looks for a map of labels.
        this.before = bench.words.has('bridge') ? chainBefore(bench, card) : null;
        const find = this.before
            ? ['Find a step', () => this.findStep(), 'look for a step from the problem before this one to the new problem, by any map']
            : ['Find a map', () => this.findMap(), 'look for a map of labels that makes the new problem a relaxation of this one'];
        this.find = button(find[0], find[1], {title: find[2]});
        this.apply = button('Make the card', () => this.make(), {class: 'primary', disabled: true});
        this.dialog = openWideDialog(`Edit problem ${view.number.textContent}`,
            element('div.columns', {}, this.editor.node,
                element('div.map', {}, element('div.group', {role: 'radiogroup', 'aria-label': 'kind of edit'}, this.radios()),
                    hint(this.help), this.map.node)),
            this.state, element('footer', {}, this.apply, this.find));
    }

    radios() {
        const isBehindStep = this.bench.cards.path(this.card.id).at(-1).kind === 'step';
        return Object.entries(MODES)
            .filter(([mode]) => mode !== 'rows' || isBehindStep)
            .map(([mode, {name}]) => element('label.radio', {},
                     element('input',
                         {type: 'radio', name: 'mode', value: mode, checked: mode === this.mode, onchange: () => this.choose(mode)}),
                     name));
    }

    choose(mode) {
        Object.assign(this, {mode, isTouched: false});
        this.suggest();
    }

    // {text, line}, the line of the area at which it stands.
    get rows() { return filledRows(this.map.value); }
    get lines() { return this.rows.map(({text}) => text); }

    suggest() {
        replace(this.help, MODES[this.mode].help);
        const to = this.editor.problem && describe(this.editor.problem).labels;
        this.map.value = guessedMap(this.mode, this.problem, this.card.problem, to, this.lines).join('\n');
        this.judge();
    }

    async judge() {
        const turn = this.turn = {}, {mode, editor, rows, lines} = this, {degree} = this.problem.active;
        this.apply.disabled = true;
        this.find.hidden = mode !== 'relax';
        this.map.number();
        if (!editor.problem) {
            replace(this.state, hint('The new problem has a fault.'));
            return;
        }
        const wrong = rows.find(({text}) => !readMap(mode, [text], degree));
        if (wrong) {
            this.complain(wrong.line, 'it has another form.');
            return;
        }
        if (mode !== 'relax') {
            replace(this.state, hint('re check judges the map with the step, on the card.'));
            this.apply.disabled = false;
            return;
        }
        const text = mapInput(this.card.problem, editor.problem, lines);
        const answer = await this.bench.engine.ask('re', ['relax'], text, {quiet: true}).catch(error => ({text: error.message}));
        if (turn !== this.turn) return;
        const said = answer.text.trim(), isYes = said === 'yes', offset = text.split('\n').indexOf('== map') + 1,
              row = rows[faultLine(said) - offset - 1];
        if (row) this.complain(row.line, `re relax: ${said.replace(/.*: /, '')}`);
        else replace(this.state, isYes ? element('span.good', {}, 're relax: yes') : faulty(`re relax: ${said}`));
        this.apply.disabled = !isYes;
    }

    // A fault at a line of the map.
    complain(line, said) {
        this.map.number(line);
        replace(this.state, faulty(`map line ${line}: ${said}`));
    }

    async findMap() {
        if (!await this.editor.read()) return;
        const job = this.bench.engine.startWork(
            'findRelaxation', [this.card.problem, this.editor.problem, 2000000], {title: 'find a map', quiet: false});
        const pairs = await this.looked('looking for a map… ', job).catch(() => null);
        if (!pairs) {
            replace(this.state, faulty('No map of labels was found.'));
            return;
        }
        this.isTouched = true;
        this.map.value = pairLines(pairs).join('\n');
        this.judge();
    }

    // What a job answers that the user may stop.
    looked(what, job) {
        replace(this.state, hint(what), button('Stop', () => job.stop()));
        this.dialog.addEventListener('close', () => job.stop());
        return job.answer;
    }

    // The step that `bridge` finds becomes a card beside this one.
    async findStep() {
        if (!await this.editor.read()) return;
        const {bench, before, editor: {problem, written}} = this;
        const answer =
            await this.looked('looking for a step… ', await startBridge(bench, before, problem)).catch(error => ({text: error.message}));
        if (!answer.text.startsWith('==')) {
            const said = answer.text.trim();
            replace(this.state,
                faulty(said === 'no' ? 'There is no step to this problem: explore bridge says no.' : `explore bridge: ${said}`));
            return;
        }
        const cards =
            await bench.searches.cardsOf(answer.text, {title: 'edited', skipped: stagesOf(before).length - 1, written: () => written});
        this.dialog.close(DONE);
        await bench.append(before.at(-1), ...cards);
    }

    async make() {
        // What was typed last may not be read yet.
        if (!await this.editor.read()) return;
        const {mode, bench, card, editor} = this, map = readMap(mode, this.lines, this.problem.active.degree);
        if (!map) {
            this.judge();
            return;
        }
        const {problem, written} = {problem: editor.problem, written: editor.written};
        this.dialog.close(DONE);
        if (mode === 'relax') await bench.changes.relaxTo(card, problem, this.lines.map(labelsIn), 'relaxed', written);
        else
            await bench.append(card, {kind: 'change', title: mode === 'rows' ? 'relaxed by rows' : 'restricted', problem, written, ...map});
    }
}
