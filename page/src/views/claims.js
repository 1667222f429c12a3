// Lines of the programs as the page shows them: each as it was printed, with the model that it speaks of beside it, and counts in words.
import {element, hint, plural} from './dom.js';

// A bound speaks of deterministic algorithms that know port numbers alone, or also what is given; where the line says so itself, nothing is added.
export function modelOf(line) {
    if (!/not solvable|isn't solvable/.test(line) || /with identifiers|with port numbers/.test(line)) return '';
    return /given that input/.test(line) ? 'with port numbers and that input' : 'with port numbers alone';
}

// The same with the class of algorithms and of graphs: beside a verdict, and beside each line that `judge` says of evidence.
const ON_TREES = 'by deterministic algorithms on infinite trees';
export function scopeOf(line) {
    if (/^holds: with identifiers: /.test(line)) return 'by deterministic algorithms with identifiers below N on finite forests of N nodes';
    if (/^holds: .* with port numbers alone$/.test(line)) return ON_TREES;
    const model = /^holds: (?:exactly|more than|at most) /.test(line) ? 'with port numbers alone' : modelOf(line);
    return model && `${model}, ${ON_TREES}`;
}

// The text of a line: of `1 rounds` the last letter stands there to be copied, and isn't seen.
export const lineText = line => line.split(/(\b1 rounds\b)/)
                                    .flatMap(part => part === '1 rounds' ? ['1 round', element('span.caret', {}, 's')]
                                            : part                       ? [part]
                                                                         : []);

// A line with its model behind it, or what else is said of it there.
export const claimNodes =
    (line, kind = 'span.line', said = modelOf(line)) => [element(kind, {}, lineText(line)), said ? hint(` ${said}`) : null];

// What a search says that found nothing.
export const inWords = line =>
    line.replace(/^not found: (?:searched )?nodes (\d+), cut (\d+)$/,
            (_, nodes, cut) =>
                `not found: ${plural(Number(nodes), 'problem')} looked at, ${cut === '0' ? 'none' : cut} of them cut at a limit`)
        .replace(/^not found: graphs (\d+)$/, (_, graphs) => `not found: ${plural(Number(graphs), 'graph')} tried`);
