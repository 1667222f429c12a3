// Which kind of input a problem is: what a program prints for the kind is compared with it.
import {INPUT_KINDS, inputCommand, isOwnKind} from '../texts/inputs.js';
import {describe} from '../texts/problems.js';

// What the program prints for a kind, a number of colours and degrees; null where it prints nothing.
async function printed(engine, words, kind, degrees, count) {
    const command = inputCommand(words, kind, degrees, count);
    if (!command) return null;
    const {status, text} = await engine.ask(command.program, command.words, '', {quiet: true}).catch(() => ({status: 1}));
    return status === 0 ? text : null;
}

// Whether an input {kind, count, problem} is what its kind and number say, at a problem of these degrees.
export const isOfItsKind = async (engine, words, degrees, {kind, count, problem}) =>
    isOwnKind(kind) || await printed(engine, words, kind, degrees, count) === problem;

// The input {kind, count, problem} that a problem is; null where it is of no kind. A colouring has as many labels as colours, and an edge
// colouring too.
export async function inputOfKind(engine, words, degrees, problem) {
    const labels = describe(problem).labels.length;
    for (const {kind, counts} of INPUT_KINDS) {
        if (isOwnKind(kind)) continue;
        const count = counts ? labels : 0;
        if (counts && (count < counts.least(degrees) || count > counts.most)) continue;
        if (await printed(engine, words, kind, degrees, count) === problem) return {kind, problem, ...(counts && {count})};
    }
    return null;
}
