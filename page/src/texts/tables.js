// Tables of the catalogue as the file holds them: few answers are different, and each stands there once.

const BETWEEN_PARTS = '\n\n';

// Three parts with an empty line between: the problems, one a line, in the order of their numbers from 1 on; the different answers, one a line;
// and for each problem the place of its answer among these.
export function shortTable(table) {
    const places = new Map(), rows = table.replace(/\n$/, '').split('\n').map((line, i) => {
        const [number, problem, ...answer] = line.split('\t'), told = answer.join('\t');
        if (number !== String(i + 1)) throw new Error(`the table's line ${i + 1} has another number: ${number}`);
        if (!places.has(told)) places.set(told, places.size);
        return {problem, place: places.get(told)};
    });
    return [rows.map(({problem}) => problem).join('\n'), [...places.keys()].join('\n'), rows.map(({place}) => place).join(' ')].join(
        BETWEEN_PARTS);
}

// The table of which these are the parts.
export function wholeTable(short) {
    const [problems, answers, places] = short.split(BETWEEN_PARTS), told = answers.split('\n'), placeOf = places.split(' ');
    return problems.split('\n').map((problem, i) => `${i + 1}\t${problem}\t${told[placeOf[i]]}\n`).join('');
}
