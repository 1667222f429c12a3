// Texts of evidence, as `explore judge` reads them: parts on one problem, with lines `=====` between them.
import {faultLine} from './certificates.js';
import {readSettled} from './settled.js';

// A part that `judge` alone reads is such a text by itself.
export const isEvidence = text => /^(?:=====|== (?:flexible|length|greedy))[ \t\r]*$/m.test(text);

// What a part holds, by the first of these lines that it has.
const KINDS = [
    [/^== graph$/m, 'a graph'], [/^== length$/m, 'the number of its levels of labels'], [/^== flexible$/m, 'a flexible set of labels'],
    [/^== greedy$/m, 'labels for one node after another'], [/^== given$/m, 'a bound given an input'],
    [/^== certificate \d+ lower\b/m, 'a lower bound'], [/^== certificate \d+ upper\b/m, 'an upper bound'],
    [/^== certificate \d+ fixed\b/m, 'a fixed point']
];
// Those that the page opens as cards, or as a picture.
const OPENED = ['a graph', 'a bound given an input', 'a lower bound', 'an upper bound', 'a fixed point'];

// A line between two parts has these bytes and no others.
const JOINTS = /(?<![^\n])=====(?![^\n])/g, JOINT_AND_END = 6;

function countLines(text) {
    let count = text && !text.endsWith('\n') ? 1 : 0;
    for (let at = text.indexOf('\n'); at >= 0; at = text.indexOf('\n', at + 1)) count++;
    return count;
}

// [{text, first, last, holds, isOpened}], `first` and `last` its lines in the whole text, from 1, and `holds` what it holds, in words.
export function partsOfEvidence(text) {
    const joints = [...text.matchAll(JOINTS)].map(({index}) => index);
    let first = 1;
    return [0, ...joints.map(at => at + JOINT_AND_END)].map((start, i) => {
        const part = text.slice(start, joints[i]), last = first + Math.max(1, countLines(part)) - 1,
              [, holds] = KINDS.find(([line]) => line.test(part)) || [null, 'no part that judge knows'],
              found = {text: part, first, last, holds, isOpened: OPENED.includes(holds)};
        first += countLines(part) + 1;
        return found;
    });
}

// The part that `judge` refuses, or finds a fault in: {number, line}, the line within the whole text, where it names one within the part, else
// the first one of the part; null where it says nothing of one part.
export function refusedPart(said, parts) {
    const [, number, why] = /^part (\d+): ([^]*)$/.exec(said) || [], part = parts[number - 1];
    return part ? {number: Number(number), line: part.first + (faultLine(why) || 1) - 1} : null;
}

// What `settle` claims and no line of `judge` says: a count for which there is no certificate, say.
export function claimsBeyond(settled, said) {
    const shown = said.trim().split('\n');
    return readSettled(settled)
        .map(({line}) => line)
        .filter(line => /^(?:exactly|more than|at most|not solvable|with identifiers:) /.test(line) && !shown.includes(`holds: ${line}`));
}
