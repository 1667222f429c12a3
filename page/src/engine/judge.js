// The verdict of `re check` on the chain of cards.
import {certificateOf, kindsOf, stagesOf} from '../cards/chains.js';
import {mapInput, readVerdict} from '../texts/certificates.js';
import {blockOf, problemText} from '../texts/problems.js';

// The text of a card's problem in a certificate: as it was written, or in groups, or one configuration a line.
export async function writtenText(facts, card) {
    const known = facts.of(card.problem);
    if (card.written) return problemText(known.problem, blockOf(card.written.active), blockOf(card.written.passive));
    return known.written().then(({text}) => text, () => card.problem);
}

// Of the cards of a path that are problems of its certificate the texts.
async function writtenTexts(facts, path) {
    const last = stagesOf(path).map(stage => stage.at(-1));
    return new Map(await Promise.all(last.map(async card => [card, await writtenText(facts, card)])));
}

// A path as a certificate of a kind that it can be written as.
export async function writtenChain(facts, path, kind) {
    const texts = await writtenTexts(facts, path);
    return certificateOf(path, kind, card => texts.get(card));
}

// The first accepted bound of the chain, or the last refused one: {kind, certificate, line, accepted, refused, step, clause}.
// `check(text, title)` answers what `re check` prints.
export async function judge(check, facts, path) {
    const texts = await writtenTexts(facts, path);
    const kinds = path.at(-1).back ? kindsOf(path).filter(kind => kind === 'lower').map(() => 'fixed') : kindsOf(path);
    const verdicts = [];
    for (const kind of kinds) {
        const certificate = certificateOf(path, kind, card => texts.get(card));
        const verdict = {kind, certificate, ...readVerdict(await check(certificate, `check, ${kind}`))};
        if (verdict.accepted) return verdict;
        verdicts.push(verdict);
    }
    // A chain that is of both kinds is refused at END alone, so it is never refused twice.
    return verdicts.find(verdict => verdict.step || !verdict.refused) || verdicts[0] ||
        {kind: null, certificate: '', line: '', accepted: false, refused: false};
}

// The lines by which `explore why` shows that a clause fails; `explain(text)` answers what it prints of a certificate: the line of
// `re check`, and behind it these.
export async function shownRefusal(explain, {certificate, line}) {
    const [judged, ...shown] = (await explain(certificate)).trim().split('\n');
    return judged === line ? shown : [`explore why: ${judged}`, ...shown];
}

// How the problem that a certificate begins with is related to the first card, asked of `re relax`: {from, to, isYes, line}; null where it is
// this card. An upper bound speaks of the first card where that one is a relaxation of it, other bounds where it is one of the first card.
export async function relation(engine, facts, path, kind) {
    const [first, ...changes] = stagesOf(path)[0], last = changes.at(-1);
    if (!last) return null;
    const labelsOf = card => facts.of(card.problem).problem.labels;
    let from = first, to = last, map = new Map(labelsOf(first).map(label => [label, label]));
    const isRestricted = changes.every(({restrict}) => restrict && Object.values(restrict).every(set => set.length === 1));
    if (changes.every(change => change.relax) && !(kind === 'upper' && isRestricted)) {
        for (const {relax} of changes) map = new Map([...map].map(([label, image]) => [label, relax[image] ?? image]));
    } else {
        // A restriction to some labels: the first problem is a relaxation of it.
        if (!isRestricted) return null;
        [from, to] = [last, first];
        map = new Map(labelsOf(last).map(label => [label, changes.reduceRight((at, {restrict}) => restrict[at]?.[0] ?? at, label)]));
    }
    const {text} =
        await engine.ask('re', ['relax'], mapInput(from.problem, to.problem, [...map].map(pair => pair.join(' '))), {quiet: true});
    return {from, to, isYes: text.trim() === 'yes', line: text.trim()};
}
