// What `explore settle` prints: a line that claims something, and behind it a line `by: ..` for each thing that shows it; then further
// claims, as that on algorithms with unique identifiers, each with its own.
import {isLabel} from './texts.js';

// What was written so far, without a line that isn't ended.
export const wholeLines = text => text.slice(0, text.lastIndexOf('\n') + 1);

// [{line, shownBy}], the claim first.
export function readSettled(text) {
    const [line, ...rest] = text.trim().split('\n'), parts = [{line, shownBy: []}];
    for (const row of rest.map(other => other.trim()).filter(Boolean)) {
        if (row.startsWith('by: ')) parts.at(-1).shownBy.push(row.slice(4).trim());
        else parts.push({line: row, shownBy: []});
    }
    return parts;
}

// Whether what `settle` printed leaves a question that more effort may answer. A law leaves none.
export const leavesQuestion = text =>
    readSettled(text).some(({line}) => !line.startsWith('law: ') && /\bmore than\b|at least order log\* N/.test(line));

const isNumber = word => /^\d+$/.test(word);

// Whether what commands find hangs on the names of the labels, where others give them the same order: they name some.
export const nameLabels = commands => commands.some(({words, diagram}) => diagram || words.slice(1).some(word => !isNumber(word)));

// A label as a shell asks for it, in quotes or not.
const unquoted = word => word.replace(/^'(.*)'$/, '$1');

// Commands as `re lower 2 0`, `explore merge 'A' 'B' | explore closure`, `explore rounds 8 given 4 colours`, `.. given 5 edge colours` or
// `explore closure with diagram A C`: [{program, words, colours, isOfEdges, diagram}], the colours those of a proper colouring that is given,
// one of the edges where `isOfEdges`, and the diagram an edge `A C`, if any; null where one is of none of these programs, or has words that
// are no numbers and no labels.
export function commandsIn(text, programs) {
    const commands = text.split('|').map(part => {
        const [, command, colours, ofEdges, edge] = /^(.*?)(?: given (\d+) (edge )?colours| with diagram (\S+ \S+))?$/.exec(part.trim()),
                                            [program, ...words] = command.split(/\s+/).map(unquoted);
        return {
            program,
            words,
            ...(colours && {colours: Number(colours)}),
            ...(ofEdges && {isOfEdges: true}),
            ...(edge && {diagram: edge.split(' ').map(unquoted).join(' ')})
        };
    });
    const isCommand = ({program, words: [word, ...others]}) =>
        programs.includes(program) && /^[a-z]+$/.test(word || '') && others.every(other => isNumber(other) || isLabel(other));
    return commands.every(isCommand) ? commands : null;
}
