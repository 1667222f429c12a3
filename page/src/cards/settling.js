// What is known of a problem: the words `settle`, `cover` and `solve` of `explore`, and the commands that show it.
import {claimNodes} from '../views/claims.js';
import {button, code, element, hint, seconds} from '../views/dom.js';
import {openEvidenceDialog} from '../dialogs/evidence_dialog.js';
import {openGraphDialog} from '../dialogs/graph_view.js';
import {isGraphText} from '../texts/graphs.js';
import {Stopped} from '../engine/engine.js';
import {givenInput, inputCommand, raisedInput} from '../texts/inputs.js';
import {commandsIn, leavesQuestion, nameLabels, readSettled, wholeLines} from '../texts/settled.js';
import {runTask} from '../engine/tasks.js';
import {isUnknown} from '../engine/words.js';

// The most that `settle` takes.
const MOST_SETTLE = 64;

// Notes of the same command, given the same.
const isSame = (note, {what, input}) => note.kind === 'settled' && (note.what || 'settle') === what && (note.input || '') === (input || '');

export class Settling {
    // `searches` adds the cards of what is found, `underNames(card, view, names)` makes a card under other names, and `openText(text, title)` opens a
    // chain of its own. `running` says what is asked of problems at the moment.
    constructor({engine, facts, cards, given, notes, tries, words, searches, underNames, openText}) {
        Object.assign(this, {engine, facts, cards, given, notes, tries, words, searches, underNames, openText, running: new Map()});
    }

    // What a word reads behind the problem of a card, as given_view.js has it, where the program reads it, else null.
    inputOf(card, word = 'settle') { return this.words.has(`${word} given`) ? this.given.asked(this.cards.path(card.id), card) : null; }

    // `effort` bounds what is tried: with twice as much the answer may say more. What is written meanwhile stands there at once.
    async settle(card, view, effort = 1, input = this.inputOf(card)) {
        const words = effort > 1 ? ['settle', String(effort)] : ['settle'], behind = input ? ` given ${input.name}` : '',
              what = `${words.join(' ')}${behind}`, title = `${words.join(' ')} problem ${view.number.textContent}${behind}`,
              known = this.answers(view, input?.problem)[0], note = {kind: 'settled', what, ...(input && {input: input.problem})};
        const runs = this.keyOf(view, input?.problem);
        this.running.set(runs, what);
        this.notes.show(view);
        let time = 0;
        const answer = await runTask(this.engine, title, async task => {
            const soFar = text => {
                task.state = `so far: ${readSettled(text)[0].line}`;
            };
            const onText = text => {
                const lines = wholeLines(text);
                if (!lines) return;
                soFar(lines);
                this.begin(view, {...note, text: lines, isBegun: true});
            };
            if (known) soFar(known.text);
            const said = await task.ask('explore', words, input ? givenInput(card.problem, input.problem) : card.problem, {onText});
            time = performance.now() - task.started;
            return said;
        }).catch(error => {
            this.running.delete(runs);
            this.endEarly(view, note, title, error);
            return null;
        });
        this.running.delete(runs);
        if (!answer || answer.status > 1) {
            this.notes.show(view);
            if (answer && isUnknown(answer)) view.noteHint(`${what} isn't available with the programs of this page.`);
            else if (answer) view.complain(answer.text.trim());
            return;
        }
        this.try(view, note, answer.text, time);
        const begun = this.notes.of(view.card).find(other => isSame(other, note) && other.isBegun),
              whole = {...note, text: answer.text, more: seconds(time)};
        if (begun) {
            this.notes.put(view, whole, other => isSame(other, note));
            return;
        }
        this.notes.replace(view, other => isSame(other, note));
        view.note(whole);
    }

    // Lines that were written while the search goes on; they say no more than a whole answer that stands there.
    begin(view, note) {
        const before = this.notes.of(view.card).find(other => isSame(other, note));
        if (!before) view.note(note);
        else if (before.isBegun) this.notes.put(view, note, other => isSame(other, note));
    }

    // A run that was stopped, or failed: what it wrote until then stays.
    endEarly(view, note, title, error) {
        const begun = this.notes.of(view.card).find(other => isSame(other, note) && other.isBegun), isStopped = error instanceof Stopped;
        if (begun) this.try(view, note, begun.text, null);
        view.noteHint(`${title}: ${isStopped ? `stopped${begun ? '; what it wrote until then stays.' : '.'}` : error.message}`);
    }

    // The claim, and that on identifiers, among what was tried on the problem.
    try(view, {what, input}, text, time) {
        const [claim, ...others] = readSettled(text), identifiers = others.find(({line}) => line.startsWith('with '));
        this.tries.add(view, what, claim.line, {time, input});
        if (identifiers) this.tries.add(view, `${what}, with identifiers`, identifiers.line, {time, input});
    }

    // Of which problem, and given what, more is asked.
    keyOf(view, input = '') { return `${view.card.problem}\n${input}`; }

    // What was answered as a whole on a card given an input, or without one, that with the most effort first.
    answers(view, input = '') {
        const effortOf = ({what = 'settle'}) => Number(/^settle (\d+)/.exec(what)?.[1] || 1);
        return this.notes.of(view.card)
            .filter(note => note.kind === 'settled' && (note.input || '') === input && !note.isBegun)
            .map(note => ({...note, effort: effortOf(note)}))
            .sort((a, b) => b.effort - a.effort);
    }

    // What `settle` printed: its claim, with what shows it, and below it each further line, as that on unique identifiers.
    lines(view, {text, what = 'settle', more, input, isBegun}) {
        const asked = input ? {name: what.slice(what.indexOf(' given ') + 7), problem: input} : null;
        return [
            ...readSettled(text).map(({line, shownBy}, i) => element('div.settled', {}, i ? null : element('strong', {}, `${what}: `),
                                         line.startsWith('note: ') ? hint(line) : claimNodes(line), ' ',
                                         this.buttons(view.card, view, shownBy, {input: asked}), i ? null : hint(more))),
            isBegun
                ? hint(this.running.get(this.keyOf(view, input)) === what ? 'still searching…' : 'the search ended before it wrote more')
                : [this.evidenceButton(view, {what, text}, asked), this.moreEffort(view, what, asked)]
        ];
    }

    // Where the program has the words: one text that shows all of it, which anybody can judge.
    evidenceButton(view, {what, text}, input) {
        const {words} = this, [, number] = /^settle(?: (\d+))?$/.exec(what) || [];
        if (input || !words.has('evidence') || !words.has('judge') || number && !words.has('evidence N')) return null;
        const asked = ['evidence', ...(number ? [number] : [])];
        return button('Evidence', () => this.evidence(view, asked, text),
            {title: `explore ${asked.join(' ')}: one text with all that shows it, judged by explore judge`, class: 'evidence'});
    }

    // The text is shown with what the program says of it, and what `settle` said.
    async evidence(view, words, settled) {
        const title = `${words.join(' ')} problem ${view.number.textContent}`;
        const found = await runTask(this.engine, title, async task => {
            const {status, text} = await task.ask('explore', words, view.card.problem);
            if (status !== 0) throw new Error(text.trim());
            return {text, judged: await task.ask('explore', ['judge'], text)};
        }).catch(error => {
            view.noteHint(`${title}: ${error instanceof Stopped ? 'stopped.' : error.message}`);
            return null;
        });
        if (found) openEvidenceDialog(found.text, found.judged, this.openText, settled);
    }

    // Behind the answer with the most effort, while it leaves a question: a button that asks with twice as much.
    moreEffort(view, what, input) {
        const [most] = this.answers(view, input?.problem), {running, words} = this;
        if (most?.what !== what || !words.has('settle N') || most.effort >= MOST_SETTLE || !leavesQuestion(most.text)) return null;
        if (running.has(this.keyOf(view, input?.problem))) return hint(`settle ${2 * most.effort} runs…`);
        return button('More effort', () => this.settle(view.card, view, 2 * most.effort, input),
            {title: `explore settle ${2 * most.effort}: each try with twice the work; what is known so far stays`, class: 'more-effort'});
    }

    // A button for each command that shows what is known: it opens the chain, or draws the graph. Where it was found under other names,
    // [[label, name]], the problem takes these first, if what the command finds hangs on them: it does on the order of the labels. Where it
    // was found given an `input`, {name, problem}, the first command reads that too.
    buttons(card, view, shownBy, {names = [], isInOrder = true, input = null} = {}) {
        const {engine, words} = this, isNamed = names.every(([label, name]) => label === name);
        return element('span.group.by', {}, shownBy.length ? hint('shown by') : null, shownBy.map(text => {
            const commands = commandsIn(text, Object.keys(engine.programs));
            if (!commands) return code(text);
            // A table may name words that the program lacks.
            const lacking = commands.find(command => command.program === 'explore' && !words.has(command.words[0]));
            if (lacking) return element('span.code', {title: `The program explore of this page has no word ${lacking.words[0]}.`}, text);
            const under = !isNamed && (!isInOrder || nameLabels(commands)) ? names : null,
                  where = under ? `, under the names ${under.map(pair => pair.join(' → ')).join(', ')}` : '';
            const [first, ...others] = commands, behind = input && first.program === 'explore' ? input : null;
            return button(text,
                () => this.open(card, view, `${text}${behind ? ` given ${behind.name}` : ''}`,
                    [{...first, ...(behind && {input: behind.problem})}, ...others], under),
                {title: `run it on this problem${behind ? ' and what is given' : where}, and open what it finds`});
        }));
    }

    // Runs commands on the card's problem, each on what the one before prints.
    open(card, view, what, commands, names = null) {
        const {searches} = this, asked = commands.find(command => command.input)?.input;
        return searches.inTask(card, view, what, async task => {
            const named = names ? [await this.underNames(card, view, names)] : [];
            if (named.includes(null)) return null;
            let answer = {text: [card, ...named].at(-1).problem}, given;
            for (const {program, words, colours, isOfEdges, diagram, input} of commands) {
                if (colours) given = await this.colouring(task, card, isOfEdges ? 'edges' : 'colouring', colours);
                if (input) given = {kind: 'problem', problem: input};
                const {text} = answer, behind = input || colours && given.problem;
                answer = await task.ask(program, words, behind ? givenInput(text, behind) : diagram ? raisedInput(text, [diagram]) : text);
                if (answer.status !== 0) break;
            }
            if (isGraphText(answer.text)) {
                await this.showGraph(view, what, answer.text, asked);
                return null;
            }
            if (!answer.text.startsWith('==')) {
                await searches.tried(view, task, what, answer);
                return null;
            }
            if (!await this.speaksOf([card, ...named].at(-1), answer.text)) {
                await this.openText(answer.text, what);
                return null;
            }
            const input = given && searches.inputOfChain(card, given),
                  found = await searches.cardsOf(answer.text, {title: what, offset: searches.stepsAbove(card), asked: input});
            return {what, certificate: answer.text, cards: found.length ? [...named, ...found] : [], input};
        }, asked && {problem: asked});
    }

    // Whether a certificate begins with a card's problem: behind `explore reduce` it speaks of another one, and is a chain of its own.
    async speaksOf(card, certificate) {
        const {first} = await this.engine.work('readCertificate', certificate);
        return (await this.engine.ask('re', ['read'], first, {quiet: true})).text === card.problem;
    }

    // A proper colouring, of active nodes or of edges, as what is given to a card's problem.
    async colouring(task, card, kind, count) {
        const {active, passive} = this.facts.of(card.problem).problem,
                       {program, words} = inputCommand(this.words, kind, {active, passive}, count),
                       {status, text} = await task.ask(program, words);
        if (status !== 0) throw new Error(`${program} ${words.join(' ')}: ${text.trim()}`);
        return {kind, count, problem: text};
    }

    // ---- Graphs without a solution.

    // Of what the nodes are given, where the program reads it, a graph with a solution of that.
    cover(card, view, m) {
        const asked = this.inputOf(card, 'cover');
        return this.open(card, view, `cover ${m}${asked ? ` given ${asked.name}` : ''}`,
            [{program: 'explore', words: ['cover', String(m)], input: asked?.problem}]);
    }

    // `input` is the text of the problem that is given there, where one is.
    async showGraph(view, what, text, input) {
        const {line} = await this.solve(text).then(({text: said}) => ({line: said.trim().split('\n', 1)[0]}));
        this.tries.add(view, what, `a graph: ${line}`, {input});
        view.note({kind: 'graph', what, line, text, input});
        this.draw(text);
    }

    solve(text) { return this.engine.ask('explore', ['solve'], text, {title: 'solve'}); }
    draw(text) {
        const describe = (words, now) => this.engine.ask('explore', words, now, {title: 'describe'});
        openGraphDialog(text, now => this.solve(now), this.words.has('describe graph') ? describe : null);
    }
}
