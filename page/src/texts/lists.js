// Lists of problems: one a line, as `M^3, P O^2 / M [PO], O^2` or as the catalogue has them, `AAB ABB / AB BB`; or texts of problems with a
// line of dashes between. And the table of what is known of them.
import {filledLines, labelsIn, wordsOf} from './texts.js';

const DASHES = /^\s*-{3,}\s*$/m, LABELS_ALONE = /^(?:[A-Za-z0-9]|\([A-Za-z0-9_]{1,16}\)){2,}$/;

// The lines of one side: cut at commas; without these each word is a configuration where all of them are labels alone.
function sideOf(part) {
    if (/[,;]/.test(part)) return filledLines(part.replace(/[,;]/g, '\n'));
    const words = wordsOf(part.trim());
    return words.length && words.every(word => LABELS_ALONE.test(word)) ? words.map(word => labelsIn(word).join(' ')) : [part.trim()];
}

// A problem of one line; behind its name, or the number of its line in a table, stands a tab.
function problemOfLine(row) {
    const cells = row.split('\t'), at = Math.max(0, cells.findIndex(cell => cell.includes('/'))), written = cells[at].trim();
    return {name: at ? cells[0].trim() : '', text: `${written.split('/').map(side => sideOf(side).join('\n')).join('\n\n')}\n`};
}

// A text, with its name before it in a line `# name`, if it has one.
function problemOfText(part) {
    const [, name = '', text] = /^\s*(?:#(.*)\n)?([^]*)$/.exec(part);
    return {name: name.trim(), text: `${text.trim()}\n`};
}

// [{name, text}] of a list.
export function problemsIn(list) {
    const whole = list.replace(/\r/g, '');
    if (DASHES.test(whole)) return whole.split(new RegExp(DASHES, 'gm')).filter(part => part.trim()).map(problemOfText);
    return whole.includes('/') ? filledLines(whole).map(problemOfLine) : whole.trim() ? [problemOfText(whole)] : [];
}

// A problem in one line.
export const inOneLine = text => text.trim().split(/\n\s*\n/).map(side => filledLines(side).join(', ')).join(' / ');

// The columns of the catalogue, and behind them the seconds; what stands in a cell has no tab and no line end.
const COLUMNS = ['number', 'problem', 'answer', 'shown by', 'with identifiers', 'shown by', 'seconds'];
export function tableOf(rows) {
    const cell = text => String(text ?? '').replace(/\s+/g, ' ').trim(), commands = claim => claim?.shownBy.join('; ');
    return [
        COLUMNS, ...rows.map(({name, text, begun = [], claims = begun, fault, time}, i) => {
            const [claim, ...others] = claims;
            const behind = others.find(({line}) => line.startsWith('with identifiers: '));
            return [
                name || i + 1, inOneLine(text), claim?.line || fault, commands(claim), behind?.line.slice(18), commands(behind),
                time === undefined ? '' : (time / 1000).toFixed(1)
            ];
        })
    ].map(row => `${row.map(cell).join('\t')}\n`)
        .join('');
}
