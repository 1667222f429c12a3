// The report of `explore describe`: its Markdown cut into blocks.

// What a bound says of rounds of the graph, out of a report; null where it says nothing of them.
export const roundsOfGraph = report =>
    /^The passive nodes are the edges of a graph, and two hops are one round of the graph\. (Problem 0 .*)$/m.exec(report)?.[1] || null;

// What a bound says of unique identifiers, out of a report: its first sentence, up to the law that it cites; null where it says nothing of them.
export const identifiersIn = report => plainFormulas(/^With unique identifiers .*?(?= \()/m.exec(report)?.[0] || '') || null;

// Formulas between dollars as words: $C^{T + 1}$ as C^(T + 1).
const plainFormulas = text => text.replace(/\$([^$]+)\$/g,
    (_, formula) => formula.replaceAll('\\', '').replaceAll('{', '(').replaceAll('}', ')'));

// Blocks {kind: 'heading', level, text}, {kind: 'code', text}, {kind: 'list', items} and {kind: 'paragraph', text}.
export function blocksOfReport(markdown) {
    const blocks = [];
    let fenced = null;
    for (const line of markdown.split('\n')) {
        const last = blocks.at(-1), heading = /^(#+) (.*)$/.exec(line);
        if (fenced) {
            if (line.startsWith('```')) fenced = null;
            else fenced.lines.push(line);
        } else if (line.startsWith('```')) blocks.push(fenced = {kind: 'code', lines: []});
        else if (line.startsWith('    ')) addTo(blocks, last, 'code', line.slice(4));
        else if (!line.trim()) blocks.push({kind: 'gap'});
        else if (heading) blocks.push({kind: 'heading', level: heading[1].length, lines: [heading[2]]});
        else if (line.startsWith('- ')) addTo(blocks, last, 'list', line.slice(2));
        else addTo(blocks, last, 'paragraph', line);
    }
    return blocks.filter(({kind}) => kind !== 'gap').map(({kind,
        level,
        lines}) => kind === 'list' ? {kind, items: lines} : {kind, level, text: lines.join('\n')});
}

function addTo(blocks, last, kind, line) {
    if (last?.kind === kind) last.lines.push(line);
    else blocks.push({kind, lines: [line]});
}

// A line of text in parts {kind: 'plain', 'code' or 'bold', text}.
export function partsOfText(text) {
    return text.split(/(`[^`]+`|\*\*[^*]+\*\*)/).filter(Boolean).map(part => {
        if (/^`.+`$/s.test(part)) return {kind: 'code', text: part.slice(1, -1)};
        return /^\*\*.+\*\*$/s.test(part) ? {kind: 'bold', text: part.slice(2, -2)} : {kind: 'plain', text: plainFormulas(part)};
    });
}
