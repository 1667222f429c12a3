// Random chains, made of the same parts as the page makes them, written as certificates: the native program accepts them, or refuses
// them at END alone. CHAINS is their count, SEED another beginning.
import {readStep} from '../src/texts/certificates.js';
import {certificateOf, kindsOf} from '../src/cards/chains.js';
import {configsOf, describe, mapped, without, withArrow} from '../src/texts/problems.js';
import {configText, filledLines} from '../src/texts/texts.js';
import {checked} from './checks.mjs';
import {answer, randomFrom, re} from './place.mjs';

const count = Number(process.env.CHAINS || 60), seed = Number(process.env.SEED || 1);
const random = randomFrom(seed), some = list => list[random(list.length)];
const MOST_LABELS = 14;

function randomProblem() {
    const labels = ['A', 'b', '3', '(lo_ng)'].slice(0, 2 + random(3));
    const side =
        degree => [...new Set(Array.from({length: 1 + random(5)}, () => configText(Array.from({length: degree}, () => some(labels)))))]
                      .join('\n');
    return answer(['read'], `${side(2 + random(2))}\n\n${side(2 + random(2))}\n`);
}

const labelsOf = text => describe(text).labels;
const identity = labels => Object.fromEntries(labels.map(label => [label, label]));
const canonical = text => {
    const {status, text: found} = re(['read'], text);
    return status === 0 ? found : null;
};
const change = (text, values) => {
    const problem = canonical(text);
    return problem && {kind: 'change', title: Object.keys(values).join(), problem, ...values};
};

// Two labels of which the second becomes the first.
function mergeOf(text) {
    const labels = labelsOf(text), [x, y] = [some(labels), some(labels)];
    return labels.map(label => [label, label === y ? x : label]);
}

const make = {
    step({problem: text}) {
        const step = re(['step', '1'], text), rows = re(['universal'], text);
        if (step.status !== 0) return null;
        const {meanings, problem} = readStep(step.text);
        return meanings.length > MOST_LABELS || !meanings.length ? null : {kind: 'step', problem, meanings, rows: filledLines(rows.text)};
    },
    merge({problem}) {
        const pairs = mergeOf(problem);
        return change(mapped(problem, pairs), {relax: Object.fromEntries(pairs)});
    },
    arrow({problem}) {
        const labels = labelsOf(problem);
        return change(withArrow(problem, some(['active', 'passive']), some(labels), some(labels)), {relax: identity(labels)});
    },
    leaveOut({problem}) {
        const left = canonical(without(problem, [some(labelsOf(problem))]));
        return left && {
            kind: 'change',
            title: 'leave out',
            problem: left,
            restrict: Object.fromEntries(labelsOf(left).map(label => [label, [label]]))
        };
    },
    rename({problem}) {
        const labels = labelsOf(problem), pairs = labels.map((label, i) => [label, `(z${labels.length - i})`]);
        return change(mapped(problem, pairs),
            {relax: Object.fromEntries(pairs), restrict: Object.fromEntries(pairs.map(([from, to]) => [to, [from]]))});
    },
    // Each configuration goes to its image by some map: what a relaxation by rows is made of.
    rows({kind, problem}) {
        if (kind !== 'step') return null;
        const pairs = mergeOf(problem), image = new Map(pairs);
        return change(
            mapped(problem, pairs), {images: configsOf(problem, 'active').map(config => [config, config.map(label => image.get(label))])});
    },
};

await checked(`${count} chains`, (checks, context) => {
    const lines = {};
    for (let n = 0; n < count; n++) {
        const path = [{kind: 'first', problem: randomProblem()}];
        for (let length = 2 + random(6); length > 0; length--) {
            const card = make[some(['step', 'step', 'step', 'merge', 'arrow', 'leaveOut', 'rename', 'rows'])](path.at(-1));
            if (!card?.problem || !labelsOf(card.problem).length) continue;
            path.push(card);
            for (const kind of kindsOf(path)) {
                const text = certificateOf(path, kind, other => other.problem), line = answer(['check'], text).trim();
                const isGood = line.startsWith('accepted: ') || line === 'refused: clause END',
                      what = isGood ? `${kind} ${line.split(':')[0]}` : line;
                lines[what] = (lines[what] || 0) + 1;
                checks.check(`${line}: ${path.map(other => other.title || other.kind).join(', ')}\n${text}`, isGood);
            }
        }
    }
    context.diagnostic(Object.entries(lines).map(([what, times]) => `${what} ${times}`).join(', '));
});
