// The evidence for what `settle` said: one text that anybody can judge, the lines of `explore judge` on it, the command that prints them, and
// its parts, each to be seen in the text and to be opened.
import {claimNodes, scopeOf} from '../views/claims.js';
import {button, copy, cut, download, element, hint, plural, shellLine} from '../views/dom.js';
import {say} from '../views/messages.js';
import {claimsBeyond, partsOfEvidence, refusedPart} from '../texts/evidence.js';
import {openDialog} from './dialogs.js';
import {LONGEST_SHOWN, NumberedArea} from './numbered_area.js';

const FILE_OF_EVIDENCE = 'evidence.txt';
// More parts `judge` doesn't read.
const MOST_PARTS = 16;

// `judged` is {status, text}, what the program said of it; `open(text, title)` opens a part as cards, or draws it; `settled` is what `settle`
// printed, where the text is the evidence for that.
export function openEvidenceDialog(text, judged, open, settled = '') {
    const parts = partsOfEvidence(text), refused = refusedPart(judged.text, parts), isCut = text.length > LONGEST_SHOWN,
          area = new NumberedArea({label: 'evidence', fewest: 6, most: 16});
    area.text.readOnly = true;
    area.value = cut(text, LONGEST_SHOWN);
    const openPart = async (part, i) => {
        dialog.close();
        const fault = await open(part.text, `part ${i + 1} of the evidence`);
        if (fault) say(fault.fault, true);
    };
    const dialog = openDialog('Evidence', linesOf(judged, settled), partList(parts, refused, part => area.show(part.first), openPart),
        area.node,
        isCut &&
            element('p', {},
                hint(
                    `The first ${LONGEST_SHOWN.toLocaleString('en')} of ${plural(text.length, 'character')}; Copy and Download give all.`)),
        element('footer', {}, button('Copy', event => copy(text, event.currentTarget), {class: 'primary', autofocus: true}),
            button('Download', () => download(FILE_OF_EVIDENCE, text))));
    // In a low window the button that has the focus stands below what is seen.
    dialog.scrollTop = 0;
    if (refused) area.number(refused.line);
}

// What was said of all parts together, each line with its model, or of the part that is refused; and what no part shows.
function linesOf({status, text}, settled) {
    const beyond = status === 0 ? claimsBeyond(settled, text) : [];
    const kindOf = line => status !== 0 ? 'span.faulty.line' : line.startsWith('holds: ') ? 'span.good.line' : 'span.line';
    return element('div', {role: 'status', 'aria-label': 'what explore judge says'},
        text.trim().split('\n').map(line => element('p', {}, claimNodes(line, kindOf(line), scopeOf(line)))),
        beyond.length > 0 && element('p', {}, hint(`Settle says more than these parts show: ${beyond.join('; ')}.`)),
        shellLine('here and on the command line: ', `explore judge < ${FILE_OF_EVIDENCE}`));
}

function partList(parts, refused, show, open) {
    return element('ol.parts', {'aria-label': 'its parts'}, parts.slice(0, MOST_PARTS).map((part, i) => {
        const isRefused = refused?.number === i + 1, {first, last} = part;
        return element(`li${isRefused ? '.faulty' : ''}`, {}, part.holds, ' ',
            hint(`${isRefused ? 'refused, ' : ''}${first === last ? `line ${first}` : `lines ${first} to ${last}`}`), ' ',
            button('See it', () => show(part), {class: 'link', 'aria-label': `see part ${i + 1} in the text`}), ' ',
            part.isOpened && button('Open it', () => open(part, i), {class: 'link', 'aria-label': `open part ${i + 1}`}));
    }));
}
