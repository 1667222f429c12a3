// Runs of the programs, {program, words, input, name}: all examples with all words, the problems inside of certificates, and texts that
// are none. What `explore` is asked depends on the words that it has.
import {wordsIn} from '../src/engine/words.js';
import {partsOfEvidence} from '../src/texts/evidence.js';
import {example, namesIn, natively} from './place.mjs';

const EACH = Number(process.env.EACH || 1);

const words = list => list.map(text => text.split(' '));
const short = words(['read', 'zero', 'universal', 'merge', 'trim', 'diagram active', 'diagram passive']);
const plain = words(['check', 'relax', 'restrict', 'rename', 'table', 'faster', 'slower', 'extract', 'run']);
const steps = words(
    ['step 1', 'step 2', 'step 3', 'rounds 4', 'lower 1 0', 'lower 2 0', 'lower 1 1', 'upper 1 0', 'upper 2 0', 'fixed 2 0', 'fixed 2 1']);
const alone = words([
    'family colouring 3 2 3', 'family colouring 2 2 3', 'family colouring 6 6 16', 'family matching 4 3 0', 'family orientation 5 2 0',
    'family mis 6 2 0', 'family mis 3 3 0', 'family nothing 3 2 0', 'make 4', 'make 6', 'what', 'step 0', 'step 65', 'check check',
    'lower 2 9'
]);
const aloneOfExplore = words([
    'help', 'what', 'input colouring 3 2 4', 'input edges 3 2 0', 'input sides 3 2 0', 'input orientation 3 2 0', 'input both 3 2 0',
    'input nothing 3 2 0'
]);

const explored = wordsIn(natively('explore', ['help']).text), some = list => words(list).filter(([word]) => explored.has(word));
const ofCertificates =
    some(['why', 'tidy', 'describe', 'last', 'step', 'merge A B', 'drop A', 'name A Z', 'longest 1 8', 'cycle 2 0 100', 'closure']);
const ofProblems = some([
    'begin lower', 'begin upper', 'last', 'step', 'longest 2 8', 'cycle 2 0 100', 'closure', 'closure 1', 'merge A B', 'merge O I',
    'settle', 'solve', 'cover 2'
]);
const ofReports = ['describe', 'describe latex'], reading = (list, part) => words(list).filter(([word]) => explored.has(`${word} ${part}`));
// Words that read an input problem behind the first text, and those that read a graph there.
const ofGiven = [...some(['fit', 'given', 'rounds 2', 'product']), ...reading([...ofReports, 'condense'], 'given')],
      ofGraphs = [...some(['solve']), ...reading(ofReports, 'graph')];
// Graphs of degrees 3 and 2, and one that lacks an end.
const GRAPHS =
    explored.has('solve') ? ['== graph\n1.1 1.2\n1.3 2.1\n2.2 2.3\n', '== graph\n1.1 2.1\n1.2 2.2\n1.3 2.3\n', '== graph\n1.1 1.2\n'] : [];
const INPUTS = ['== given\n1^3\n2^3\n3^3\n4^3\n\n1 [234]\n2 [34]\n3 4\n', '== given\n[IO]^3\n\nI O\n', '== given\nA B\n\nA A\n', ''];

function* runsOf(input, name) {
    const isProblem = !/^\s*==/.test(input), re = words => ({program: 're', words, input, name}),
          explore = words => ({program: 'explore', words, input, name});
    for (const given of [...short, ...plain, ...(isProblem ? steps : [])]) yield re(given);
    for (const given of isProblem ? ofProblems : ofCertificates) yield explore(given);
    for (const given of ofGiven)
        for (const [i, behind] of INPUTS.entries())
            yield {program: 'explore', words: given, input: input + behind, name: `${name} with input ${i}`};
    for (const [i, behind] of isProblem ? GRAPHS.entries() : [])
        for (const given of ofGraphs) yield {program: 'explore', words: given, input: input + behind, name: `${name} with graph ${i}`};
    if (isProblem && name.startsWith('first/')) yield* runsOfEvidence(input, name);
    if (isProblem) return;
    // A certificate in which a row, an entry or a configuration lacks is refused, mostly.
    const lines = input.split('\n');
    for (let at = 3; at < Math.min(lines.length, 60); at += 7)
        yield {
            program: 'explore',
            words: ['why'],
            input: lines.filter((_, i) => i !== at).join('\n'),
            name: `${name} without line ${at + 1}`
        };
    for (const [, part] of input.matchAll(/== (?:certificate .*|step)\n([^=]*)/g))
        for (const given of [...short, ['step', '1']]) yield {program: 're', words: given, input: part, name: `a problem of ${name}`};
}

// The evidence for what is known of a problem, its parts alone, and what lacks a line.
function* runsOfEvidence(input, name) {
    if (!explored.has('evidence') || !explored.has('judge')) return;
    yield {program: 'explore', words: ['evidence'], input, name};
    const {text} = natively('explore', ['evidence'], input), lines = text.split('\n');
    const texts = [text, ...partsOfEvidence(text).map(part => part.text), text + input, `${text}=====\n${input}`];
    for (let at = 1; at < Math.min(lines.length, 60); at += 5) texts.push(lines.filter((_, i) => i !== at).join('\n'));
    for (const [i, evidence] of texts.entries())
        yield {program: 'explore', words: ['judge'], input: evidence, name: `${name}, evidence ${i}`};
}

// The rows of one program. `EACH=n` takes each n-th one, for a machine that is busy.
export const rows = program => [...allRows()].filter(row => row.program === program).filter((_, i) => i % EACH === 0);

function* allRows() {
    for (const name of ['first', 'problems', 'gallery', 'tables'].flatMap(folder => namesIn(folder).map(file => `${folder}/${file}`)))
        yield* runsOf(example(name), name);
    for (const given of [...alone, []]) yield {program: 're', words: given, input: '', name: 'nothing'};
    for (const given of [...aloneOfExplore, []]) yield {program: 'explore', words: given, input: '', name: 'nothing'};
    for (const input of ['', '\n', 'A', 'A B\n\nA B\n\nA B', 'A^100 B\n\nA B', '\u0000', 'é ü\n\nA B', 'A B\r\n\r\nA B\r\n']) {
        yield {program: 're', words: ['read'], input, name: JSON.stringify(input)};
        yield {program: 'explore', words: ['why'], input, name: JSON.stringify(input)};
    }
}
