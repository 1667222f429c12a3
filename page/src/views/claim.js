// The bar at the bottom: the line of `re check` on the chain that is shown, and offers to close it as a fixed point.
import {$, button, code, element, hint, plural, replace, stopButton} from './dom.js';
import {kindsOf, numberOf, stagesOf} from '../cards/chains.js';
import {clauseFault, faultLine, mapInput, pairLines} from '../texts/certificates.js';
import {lineText, modelOf, scopeOf} from './claims.js';
import {judge, relation, shownRefusal} from '../engine/judge.js';
import {Stopped} from '../engine/engine.js';
import {roundsOfGraph} from '../texts/reports.js';

// Of larger certificates no sentence on rounds of the graph is asked for, nor one that takes longer, in ms.
const LARGEST_DESCRIBED = 1000000, DESCRIBE_LIMIT = 20000;

export class Claim {
    constructor(workbench) {
        this.workbench = workbench;
        this.verdict = null;
        this.jobs = new Set();
    }

    get facts() { return this.workbench.facts; }

    // Starts a job for the chain that is shown; it is stopped when another one is shown.
    async forThis(job) {
        this.jobs.add(job);
        try {
            return await job.answer;
        } finally { this.jobs.delete(job); }
    }

    async check(path) {
        const turn = this.turn = {}, {engine} = this.workbench;
        this.verdict = null;
        this.jobs.forEach(job => job.stop());
        this.workbench.given.forget(path);
        replace($('#verdict'), path.length ? hint('checking…') : '');
        replace($('#offers'));
        $('#claim').hidden = !path.length;
        $('#claim').className = 'none';
        $('#algorithm').hidden = true;
        this.workbench.report.fill(path, null);
        if (!path.length) return;
        const check = async (certificate, title) => {
            const job = engine.start('re', ['check'], certificate, {quiet: true, title});
            if (turn === this.turn) replace($('#verdict'), hint('checking… '), stopButton(job));
            return (await this.forThis(job)).text;
        };
        let verdict;
        try {
            verdict = await judge(check, this.facts, path);
        } catch (error) {
            const why = error instanceof Stopped ? 'The check was stopped. ' : `${error.message} `;
            if (turn === this.turn) replace($('#verdict'), hint(why), button('Check again', () => this.check(path)));
            return;
        }
        if (turn !== this.turn) return;
        this.verdict = verdict;
        this.showVerdict(path, verdict);
        const views = path.map(card => this.workbench.view(card));
        views.forEach(view => view.fillWritten());
        this.workbench.given.judge(path, verdict);
        this.workbench.report.fill(path, verdict);
        if (verdict.accepted) {
            this.showRelation(path, turn, verdict);
            this.showRoundsOfGraph(path, turn, verdict);
        }
        if (verdict.refused) this.showRefusal(path, turn, verdict);
        this.offer(path, turn).catch(() => {});
    }

    showVerdict(path, verdict) {
        const {accepted, kind, line, refused, certificate} = verdict, stages = stagesOf(path);
        $('#algorithm').hidden = !(accepted && kind === 'upper');
        $('#claim').className = accepted ? 'accepted' : kind ? 'refused' : 'none';
        if (!kind) {
            replace($('#verdict'),
                element('span', {}, 'This chain has relaxations and restrictions, so it is neither a lower nor an upper bound.'));
            return;
        }
        const about = `${plural(stages.length - 1, 'step')} from problem ${numberOf(path, stages[0].at(-1))}`, fault = faultLine(line);
        const scope = scopeOf(line);
        replace($('#verdict'), element('span.line', {id: 'verdict-line'}, lineText(line)),
            hint(` ${scope ? `${scope} · ` : ''}${kind === 'fixed' ? 'fixed point' : `${kind} bound`}, ${about}`),
            fault ? code(` “${certificate.split('\n')[fault - 1]}”`) : null, refused ? hint(` · ${clauseFault(verdict)}`) : null);
    }

    // Where the first problem was changed before the first step: how the certificate's problem is related to it.
    async showRelation(path, turn, {kind}) {
        const found = await relation(this.workbench.engine, this.facts, path, kind).catch(() => null);
        if (!found || turn !== this.turn) return;
        const {from, to, isYes, line} = found, first = numberOf(path, path[0]), is = isYes ? 'is' : 'is not, by this map,';
        // Whether the bound is one of the first card too.
        const isCarried = isYes && (kind === 'upper' ? to : from) === path[0];
        $('#verdict')
            .append(element('div.hint', {},
                `re relax: ${line}: problem ${numberOf(path, to)} ${is} a relaxation of problem ${numberOf(path, from)}${
                    isCarried ? `, so this is a bound of problem ${first} too` : ''}.`));
    }

    // What the bound says of rounds of the graph whose edges the passive nodes are: the sentence of `explore describe`.
    async showRoundsOfGraph(path, turn, {certificate}) {
        const {engine, facts, words} = this.workbench, {passive} = facts.of(path[0].problem).problem;
        if (!words.has('describe') || passive.degree !== 2 || certificate.length > LARGEST_DESCRIBED) return;
        const job = engine.start('explore', ['describe'], certificate, {quiet: true, limit: DESCRIBE_LIMIT, title: 'describe'});
        const {text} = await this.forThis(job).catch(() => ({text: ''})), found = roundsOfGraph(text);
        if (found && turn === this.turn)
            $('#verdict-line')
                .nextSibling.append(element('span', {id: 'rounds-of-graph', title: 'explore describe'}, ' · ', lineText(found)),
                    modelOf(found) ? ` (${modelOf(found)})` : '');
    }

    // The card that fails shows the clause in words, and what `explore why` says of it.
    async showRefusal(path, turn, verdict) {
        const failing = verdict.step ? stagesOf(path)[verdict.step]?.[0] : path.at(-1);
        const {engine, words} = this.workbench, more = this.workbench.view(failing).refuse(verdict);
        if (!words.has('why')) return;
        const explain = async text => (await this.forThis(engine.start('explore', ['why'], text, {quiet: true, title: 'why'}))).text;
        const lines =
            await shownRefusal(explain, verdict).catch(error => error instanceof Stopped ? [] : [`explore why: ${error.message}`]);
        if (turn === this.turn) replace(more, lines.map(line => element('div', {}, line)));
    }

    // Offers to close the chain, where its last problem is an earlier one under other names, or goes to it by a map.
    async offer(path, turn) {
        const {cards, engine} = this.workbench, last = path.at(-1), box = $('#offers');
        if (last.back) {
            replace(box, button('Open the fixed point again', () => cards.amend(last.id, {back: undefined})));
            return;
        }
        const targets = kindsOf(path).includes('lower') ? stagesOf(path).slice(0, -1).map(stage => stage.at(-1)) : [];
        for (const [number, target] of targets.entries()) {
            const pairs = await this.forThis(engine.startWork('findRenaming', [last.problem, target.problem]));
            if (turn !== this.turn) return;
            if (!pairs) continue;
            const {text} = await engine.ask('re', ['rename'], mapInput(last.problem, target.problem, pairLines(pairs)), {quiet: true});
            if (turn !== this.turn || text.trim() !== 'yes') return;
            box.append(
                button(`Problem ${numberOf(path, last)} is problem ${numberOf(path, target)} under other names: close as a fixed point`,
                    () => cards.amend(last.id, {back: {number, pairs}}),
                    {class: 'primary', title: `re rename: yes. ${pairs.map(pair => pair.join(' → ')).join(', ')}`}));
            return;
        }
        // No renaming: a relaxation to an earlier problem may close the chain as well.
        for (const target of targets)
            if (await this.offerRelaxation(path, target, turn)) return;
    }

    // Answers whether a map was found that `re relax` says yes to, or another chain is shown.
    async offerRelaxation(path, target, turn) {
        const {engine, changes} = this.workbench, last = path.at(-1);
        const pairs = await this.forThis(engine.startWork('findRelaxation', [last.problem, target.problem, 50000]));
        if (turn !== this.turn) return true;
        if (!pairs) return false;
        const {text} = await engine.ask('re', ['relax'], mapInput(last.problem, target.problem, pairLines(pairs)), {quiet: true});
        if (turn !== this.turn) return true;
        if (text.trim() !== 'yes') return false;
        const shown = pairs.map(([from, image]) => `${from}→${image}`);
        const number = numberOf(path, target), map = shown.slice(0, 6).join(' ') + (shown.length > 6 ? ' …' : '');
        $('#offers').append(button(`Relax problem ${numberOf(path, last)} to problem ${number}: ${map}`,
            () => changes.relaxTo(last, target.problem, pairs, `relaxed to problem ${number}`, target.written),
            {title: 're relax: yes. This leads back to the earlier problem.'}));
        return true;
    }
}
