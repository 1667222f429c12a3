// Input problems: what the nodes are given, as a solution of another problem of the same degrees. The texts come from the programs.
import {clauseFault} from './certificates.js';

// Their names are those of `explore input`. Of colours there are at least as many as `least` says for a problem's degrees, and at first
// `start`, if these are more.
export const INPUT_KINDS = [
    {kind: 'nothing', says: 'nothing'},
    {kind: 'colouring', says: 'a colouring', counts: {label: 'colours', most: 16, start: 4, least: ({passive}) => passive.degree}},
    {kind: 'edges', says: 'an edge colouring', counts: {label: 'colours', most: 16, start: 0, least: ({active}) => active.degree}},
    {kind: 'sides', says: 'the two sides'},
    {kind: 'orientation', says: 'an orientation'},
    {kind: 'both', says: 'an orientation, in and out at each node'},
    {kind: 'problem', says: 'a problem'},
];

// Whether an input of this kind is a problem of the user's own, as one is whose kind this page doesn't know.
export const isOwnKind = kind => ['nothing', 'problem'].includes(kind) || !INPUT_KINDS.some(other => other.kind === kind);

// The command that prints an input problem of these degrees: {program, words}; null where no program does.
export function inputCommand(words, kind, {active, passive}, count = 0) {
    const numbers = [active.degree, passive.degree, count].map(String);
    if (words.has('input')) return {program: 'explore', words: ['input', kind, ...numbers]};
    return kind === 'colouring' ? {program: 're', words: ['family', 'colouring', ...numbers]} : null;
}

export const givenInput = (text, input) => `${text.trimEnd()}\n== given\n${input}`;
// {text, input}: a chain or a problem, and the text of the input problem that stands behind it, or null.
export function withoutInput(text) {
    const [before, input = null] = text.split(/^==[ \t]+given[ \t\r]*\n/m);
    return {text: before, input};
}
// A chain, or a problem, with the edges of a diagram: lines `A B`, after which B stands at least as high as A.
export const raisedInput = (text, edges) => [text.trimEnd(), '== diagram', ...edges, ''].join('\n');

// What `fit` answers: {isSolvable, map: [[input label, labels as text]], line}.
export function readFit(text) {
    const [line, ...rest] = text.trim().split('\n');
    const map = rest.map(row => /^(\S+) (?:= )?(\[.*\])$/.exec(row.trim())).filter(Boolean).map(([, label, set]) => [label, set]);
    return {isSolvable: line.startsWith('yes'), map, line};
}

// What `given` answers: its first line, with the step and the clause of a refusal, and behind it the bound of fewer steps that holds still and
// the map of `fit`.
export function readGiven(text) {
    const lines = text.trim().split('\n'), still = lines.slice(1).find(line => line.startsWith('holds: '));
    const refused = /^refused: (?:given that input, )?(?:step (\d+), )?clause (\w+)/.exec(lines[0]);
    return {
        line: lines[0],
        still: still || null,
        accepted: lines[0].startsWith('accepted: '),
        refused: Boolean(refused),
        step: refused?.[1] === undefined ? null : Number(refused[1]),
        clause: refused?.[2] || null,
        map: readFit(lines.slice(1).join('\n')).map
    };
}

// What a refusal of `given` says: at END what is wrong, with what each input label becomes, else what the clause asks for.
export function givenFault(text, kind) {
    const {step, clause, map} = readGiven(text), problem = step === null ? 'the last problem' : `problem ${step}`;
    if (clause !== 'END') return clauseFault({clause, kind});
    if (kind === 'upper') return 'END: the last problem is not solvable in 0 rounds given that input, so this is no upper bound given it';
    const becomes = map.length ? ` (${map.map(pair => pair.join(' → ')).join(', ')})` : '';
    return `END: ${problem} is solvable in 0 rounds given that input${becomes}, so this is no lower bound given it`;
}
