// Searches for bounds from a card, in the background, and the cards of what they find.
import {plural, seconds} from '../views/dom.js';
import {Stopped} from '../engine/engine.js';
import {faultLine} from '../texts/certificates.js';
import {stagesOf} from './chains.js';
import {givenInput, raisedInput, withoutInput} from '../texts/inputs.js';
import {writtenChain} from '../engine/judge.js';
import {exchanged} from '../texts/problems.js';
import {runTask} from '../engine/tasks.js';
import {isUnknown} from '../engine/words.js';

const MOST_STEPS = 64, MOST_LABELS = 128, MOST_MERGES = 8, MOST_PROBLEMS = 1000000;
// So many problems `cycle` looks at first.
const FEW_PROBLEMS = 20000;
// So many steps it takes before more merges are tried.
const DEEP = 16;

const isFound = answer => answer.text.startsWith('==');
const stepsIn = certificate => certificate.split('\n== step').length - 1;
const firstLine = text => text.trim().split('\n', 1)[0];
const stepsSaid = count => plural(count, 'step');
// 1, 2, 4 .. steps, fewer than these.
const fewerSteps = steps => [1, 2, 4, 8, 16, 32].filter(n => n < steps);
const twice = (number, most) => Math.min(most, Math.max(1, 2 * number));

export class Searches {
    // `given` and `words` say what the programs are asked with, `views()` are those of the cards, `append(card, here, found)` adds the cards of
    // what was found, and `cover(card, view, m)` looks for a graph.
    constructor({engine, facts, cards, given, tries, words, append, cover}) {
        Object.assign(this, {engine, facts, cards, given, tries, words, append, cover});
    }

    // Each search by its name in search_actions.js, with its numbers; `goesOn` where it is asked again with more.
    async run(card, view, name, numbers, goesOn) {
        const {k, m, l, n} = numbers, search = {
            lower: () => goesOn ? this.grow(card, view, m) : this.search(card, view, ['lower', k, m]),
            upper: () => this.search(card, view, ['upper', k, m]),
            fixed: () => this.search(card, view, ['fixed', k, m]),
            rounds: () => this.rounds(card, view, k),
            longest: () => this.longest(card, view, k, l, goesOn),
            shortest: () => this.shortest(card, view, k, l, goesOn),
            cycle: () => this.cycle(card, view, k, m, goesOn),
            relaxed: () => this.relaxed(card, view, n, goesOn),
            closure: () => this.closure(card, view, k),
            cover: () => this.cover(card, view, m),
        };
        await search[name]();
    }

    // A search of `re` from the card's problem; beside one for a lower bound the same with fewer steps.
    search(card, view, numbers) {
        const asked = numbers.map(String), [word, k, m] = numbers;
        const fewer = word === 'lower' ? Array.from({length: Math.max(0, k - 1)}, (_, i) => ['lower', String(i + 1), String(m)]) : [];
        return this.inTask(card, view, asked.join(' '), async task => {
            const {words, answer} = await this.besides(view, task, 're', asked, fewer, card.problem), title = words.join(' ');
            await this.tried(view, task, title, answer);
            if (!isFound(answer)) return null;
            return {what: title, certificate: answer.text, cards: await this.cardsOf(answer.text, {title, offset: this.stepsAbove(card)})};
        });
    }

    // A long run, {words, answer}, and beside it short ones, one after another: where the long one is stopped, the last short one that
    // found something is what comes out. `said(answer)` says what one found, or nothing.
    async besides(view, task, program, words, fewer, input, said = answer => isFound(answer) && stepsSaid(stepsIn(answer.text))) {
        const long = task.start(program, words, input);
        let best = null, short = null;
        const runShort = async () => {
            for (const next of fewer) {
                short = task.start(program, next, input);
                const answer = await short.answer, what = said(answer);
                if (!what) return;
                best = {words: next, answer};
                task.state = `best so far: ${what}`;
            }
        };
        runShort().catch(() => {});
        try {
            return {words, answer: await long.answer};
        } catch (error) {
            if (!best || !(error instanceof Stopped)) throw error;
            view.noteHint(`${words.join(' ')}: stopped; the best so far is kept, that of ${best.words.join(' ')}.`);
            return best;
        } finally { short?.stop(); }
    }

    // Lower bounds of 1, 2 and more steps, until none is found.
    grow(card, view, m) {
        return this.inTask(card, view, `lower 1 ${m} and more`, async task => {
            let best = null;
            for (let k = 1; k <= MOST_STEPS; k++) {
                const words = ['lower', String(k), String(m)],
                      answer = await task.ask('re', words, card.problem).catch(error => this.kept(error, best));
                if (!answer) break;
                if (!isFound(answer)) {
                    await this.tried(view, task, words.join(' '), answer);
                    break;
                }
                best = {what: words.join(' '), certificate: answer.text};
                task.state = `best so far: ${stepsSaid(k)}`;
            }
            return best && {...best, cards: await this.cardsOf(best.certificate, {title: best.what, offset: this.stepsAbove(card)})};
        });
    }

    rounds(card, view, k) {
        const asked = ['rounds', String(k)], fewer = Array.from({length: Math.max(0, k - 1)}, (_, i) => ['rounds', String(i + 1)]);
        return this.inTask(card, view, asked.join(' '), async task => {
            const {words, answer} = await this.besides(view, task, 're', asked, fewer, card.problem,
                ({status, text}) => status <= 1 && text.startsWith('more than ') && text.trim()),
                          what = words.join(' ');
            this.tries.add(view, what, answer.text.trim(), {time: performance.now() - task.started});
            view.note({kind: 'answer', what: `${what}:`, line: answer.text.trim()});
            await this.roundsGiven(card, view, task, k);
            return null;
        });
    }

    // The same given the input of the chain, where `explore` has the word.
    async roundsGiven(card, view, task, k) {
        const asked = this.given.asked(this.cards.path(card.id), card);
        if (!asked || task.isStopped || !this.words.has('rounds')) return;
        const {name, problem: input} = asked, what = `rounds ${k} given ${name}`, begun = performance.now();
        task.state = `now ${what}`;
        const line = (await task.ask('explore', ['rounds', String(k)], givenInput(card.problem, input))).text.trim();
        this.tries.add(view, what, line, {time: performance.now() - begun, input});
        view.note({kind: 'answer', what: `${what}:`, line, input});
    }

    // ---- Words of `explore` that read the chain down to the card, and go on from it.

    longest(card, view, k, l, goesOn) {
        return this.fromChain(card, view, {word: 'longest', kind: 'lower', goesOn}, async (task, chain, named) => {
            const before = stepsIn(chain), further = answer => isFound(answer) && plural(stepsIn(answer.text) - before, 'further step');
            let best = null, most = before - 1;
            for (let next = [k, l]; next;) {
                const [steps, labels] = next, words = ['longest', String(steps), String(labels)];
                const fewer = best ? [] : fewerSteps(steps).map(n => ['longest', String(n), String(labels)]);
                const found =
                    await this.besides(view, task, 'explore', words, fewer, chain, further).catch(error => this.kept(error, best));
                if (!found) break;
                const {answer} = found, what = named(found.words);
                const count = isFound(answer) ? stepsIn(answer.text) : -1;
                if (count < 0 || count > most) await this.tried(view, task, what, answer, plural(count - before, 'further step'));
                if (count < 0) break;
                if (count > most) {
                    best = {what, certificate: answer.text};
                    most = count;
                }
                if (task.isStopped) break;
                task.state = `best so far: ${plural(most - before, 'further step')}; now ${words.join(' ')}`;
                const more = count - before === steps ? [twice(steps, MOST_STEPS), labels] : [steps, twice(labels, MOST_LABELS)];
                next = goesOn && String(more) !== String(next) ? more : null;
            }
            return best;
        });
    }

    shortest(card, view, k, l, goesOn) {
        return this.untilFound(card, view, {word: 'shortest', kind: 'upper', goesOn}, [k, l],
            ([steps, labels]) => [twice(steps, MOST_STEPS), twice(labels, MOST_LABELS)]);
    }

    // More problems where they didn't suffice, else twice the steps, and past some steps more merges.
    cycle(card, view, k, m, goesOn) {
        return this.untilFound(
            card, view, {word: 'cycle', kind: 'lower', goesOn}, [k, m, FEW_PROBLEMS], ([steps, merges, problems], isCut) => {
                if (isCut) return [steps, merges, twice(problems, MOST_PROBLEMS)];
                return steps < DEEP ? [twice(steps, DEEP), merges, problems] : [k, twice(merges, MOST_MERGES), problems];
            });
    }

    relaxed(card, view, n, goesOn) {
        return this.untilFound(
            card, view, {word: 'relaxed', kind: 'lower', goesOn}, [n], ([most], isCut) => [isCut ? twice(most, MOST_PROBLEMS) : most]);
    }

    // Asks for the first numbers; where it goes on, again with those that `more(numbers, isCut)` answers while they are others, until something
    // is found.
    untilFound(card, view, search, first, more) {
        return this.fromChain(card, view, search, async (task, chain, named) => {
            for (let numbers = first;;) {
                const words = [search.word, ...numbers.map(String)], what = named(words);
                task.state = search.goesOn ? `now ${words.join(' ')}` : '';
                const answer = await task.ask('explore', words, chain);
                await this.tried(view, task, what, answer);
                if (isFound(answer)) return {what, certificate: answer.text};
                const isCut = /^limit: (?:searched )?more than/.test(answer.text), next = more(numbers, isCut);
                if (!search.goesOn || !isCut && !answer.text.startsWith('not found') || String(next) === String(numbers)) return null;
                numbers = next;
            }
        });
    }

    // The closure of the problem, raised by the edges {text, line} of a diagram if some are written, else that of what 1, 2, .. k further steps
    // lead to. Answers the fault {line, text} of an edge, at its line, or nothing.
    async closure(card, view, k, edges = []) {
        const words = k ? ['closure', String(k)] : ['closure'], raised = edges.map(({text}) => text.split(/\s+/).join(' → ')).join(', '),
              what = edges.length ? `${words.join(' ')} of problem ${view.number.textContent} raised by ${raised}` : words.join(' ');
        let fault = null;
        const search = {word: 'closure', kind: 'lower', title: what, isAlone: edges.length > 0};
        await this.fromChain(card, view, search, async (task, chain, named) => {
            const before = chain.trimEnd().split('\n').length + 1,
                  text = edges.length ? raisedInput(chain, edges.map(edge => edge.text)) : chain;
            const answer = await task.ask('explore', words, text), wrong = edges[faultLine(answer.text) - before - 1];
            if (wrong) {
                fault = {line: wrong.line, text: `${answer.text.trim().replace(/^input: line \d+: /, '')}: “${wrong.text}”`};
                return null;
            }
            const asked = edges.length ? what : named(words);
            await this.tried(view, task, asked, answer);
            return isFound(answer) ? {what: asked, certificate: answer.text} : null;
        });
        return fault;
    }

    // A search for a chain of a kind that goes on from the one down to the card, and where the word reads one behind what that is given,
    // unless it `isAlone`. `find(task, text, named)` answers {what, certificate}, or null; `named(words)` says what is asked.
    fromChain(card, view, {word, kind, goesOn = false, title = word, isAlone = false}, find) {
        const path = this.cards.path(card.id), asked = !isAlone && this.words.has(`${word} given`) ? this.given.asked(path, card) : null,
              behind = asked ? ` given ${asked.name}` : '';
        return this.inTask(card, view, `${title}${goesOn ? ' and more' : ''}${behind}`, async task => {
            const chain = await writtenChain(this.facts, path, kind), text = asked ? givenInput(chain, asked.input.problem) : chain;
            const found = await find(task, text, words => `${words.join(' ')}${behind}`), skipped = stagesOf(path).length - 1;
            return found && {...found, cards: await this.cardsOf(found.certificate, {title: found.what, skipped, asked: asked?.input})};
        }, asked);
    }

    // ---- What all of them share.

    // Runs a search that answers {what, cards, certificate}, or null; the cards are added. `asked` is what it was asked with, as given_view.js has
    // it. Where what was found needs another `input` of the chain, it is given too, unless the user chose one meanwhile.
    async inTask(card, view, what, search, asked = null) {
        const here = this.cards.current, title = `${what} from problem ${view.number.textContent}`, before = this.givenTo(card);
        const run = task => {
            task.input = asked?.problem;
            return search(task);
        };
        const found = await runTask(this.engine, title, run).catch(error => {
            const isStopped = error instanceof Stopped, line = isStopped ? 'stopped' : error.message;
            view.noteHint(`${title}: ${line}${isStopped ? '.' : ''}`);
            this.tries.add(view, what, line, {input: asked?.problem});
            return null;
        });
        if (!found) return;
        const give = () => this.givenTo(card) === before && found.input && this.give(card, found.input);
        if (found.cards.length) await this.append(card, here, {...found, input: asked?.problem, give});
        else {
            give();
            if (!await this.close(card, found.certificate)) await this.noteNoStep(view, found.what, found.certificate, asked?.problem);
        }
    }

    // What is given to the chain of a card, as a text to compare.
    givenTo(card) { return JSON.stringify(this.cards.path(card.id)[0]?.given); }

    give(card, input) {
        const [first] = this.cards.path(card.id);
        if (first && first.given?.problem !== input.problem) this.given.keep(first, input);
    }

    // What is given to a card's problem as an input of its chain: behind an odd number of steps the sides are exchanged.
    inputOfChain(card, input) {
        const now = this.cards.path(card.id)[0]?.given,
              made = this.stepsAbove(card) % 2 ? {kind: 'problem', problem: exchanged(input.problem)} : input;
        return now?.problem === made.problem ? now : made;
    }

    // A search that is stopped keeps the best that it has.
    kept(error, best) {
        if (best && error instanceof Stopped) return null;
        throw error;
    }

    // Keeps what came out of a run: a certificate by the line of `check`.
    async tried(view, task, what, answer, line = '') {
        const time = performance.now() - task.started, {tries} = this, {input} = task;
        if (isUnknown(answer)) {
            view.noteHint(`${what} isn't available with the programs of this page: they say “${firstLine(answer.text)}”.`);
            return;
        }
        if (isFound(answer)) {
            tries.add(view, what, line || 'found', {time, input});
            return;
        }
        tries.add(view, what, answer.text.trim(), {time, input});
        this.noteNothing(view, what, answer.text.trim(), time, input);
    }

    // A certificate that adds no card: the line of `check`, or of `given` behind what is given, and the text that it speaks of.
    async noteNoStep(view, what, certificate, input) {
        const isGiven = withoutInput(certificate).input !== null;
        const {text} = await this.engine.ask(isGiven ? 'explore' : 're', [isGiven ? 'given' : 'check'], certificate, {quiet: true});
        view.note({kind: 'text', what: `${what}, without a further step: ${firstLine(text)}`, text: certificate, input});
    }

    noteNothing(view, what, text, time, input) {
        const cut = /cut [1-9]/.test(text) ? ' Cut: problems whose derived problem passes a limit.' : '';
        const more = text.startsWith('not found') ? `That nothing is found says nothing of the problem.${cut}` : '';
        view.note({kind: 'answer', what, line: text.split('\n', 1)[0], more: `${more} ${seconds(time)}`, input});
    }

    stepsAbove(card) { return stagesOf(this.cards.path(card.id)).length - 1; }

    // Closes the chain that is shown where it comes back as it stands, by this certificate; answers whether it does.
    async close(card, certificate) {
        const {kind, back, pairs} = await this.engine.work('readCertificate', certificate);
        if (kind !== 'fixed' || this.cards.current !== card.id) return false;
        this.cards.amend(card.id, {back: {number: back, pairs}});
        return true;
    }

    // The cards of the steps of a certificate, but for those `skipped` first ones. Its problem 0 has the number `offset` in the chain.
    // `written(text)` answers the lines to keep of a problem text, and `asked` is the input of the chain with which it was found, if one was.
    async cardsOf(certificate, {title, offset = 0, skipped = 0, asked = undefined, written = () => undefined}) {
        const bound = await this.engine.work('readCertificate', certificate), cards = [];
        for (const step of bound.steps.slice(skipped)) {
            const {text} = await this.engine.ask('re', ['read'], step.problem, {quiet: true});
            cards.push({
                kind: 'given',
                side: bound.kind === 'upper' ? 'upper' : 'lower',
                title,
                problem: text,
                written: written(step.problem),
                rows: step.rows,
                map: step.map,
                isByRows: bound.version === 2 && bound.kind !== 'upper',
                ...(asked && {asked})
            });
        }
        if (bound.kind === 'fixed' && cards.length) cards.at(-1).back = {number: bound.back + offset, pairs: bound.pairs};
        return cards;
    }
}
