// The words of the program `explore`, as its own help tells them: what it lacks isn't offered.

// A line of help begins with the forms of its word, as `settle, settle N: reads a problem, ..`. Beside the word stand `settle N`, where a
// form has a number behind it, and `longest given` and `describe graph`, where it reads an input problem, or a graph, too.
export function wordsIn(help) {
    const words = new Set();
    for (const line of help.split('\n')) {
        const [, word, forms, says] = /^([a-z]+)([^:]*): (.*)/.exec(line) || [];
        if (!word) continue;
        words.add(word);
        if (/ [A-Z]/.test(forms)) words.add(`${word} N`);
        for (const part of ['given', 'graph'])
            if (says.includes(`== ${part}`)) words.add(`${word} ${part}`);
    }
    return words;
}

// What a program says of a word that it lacks, or of a number that it doesn't take.
export const isUnknown = ({text}) => text.startsWith('words: ');

// None where the page holds no such program.
export async function wordsOfExplore(engine) {
    if (!engine.programs.explore) return new Set();
    const {status, text} = await engine.ask('explore', ['help'], '', {quiet: true});
    return status === 0 ? wordsIn(text) : new Set();
}
