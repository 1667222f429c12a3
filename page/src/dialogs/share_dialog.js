// All cards for somebody else: as a text to send, or as a file, with what the other one does with it.
import {button, copy, download, element, hint, plural, replace} from '../views/dom.js';
import {fileNameOf} from '../texts/texts.js';
import {openDialog} from './dialogs.js';
import {titleOf} from '../cards/chains.js';

export async function openShareDialog(bench) {
    const {cards, cards: {cards: all}} = bench, [first] = cards.path();
    const title = first ? titleOf(first) : 'nothing',
          area = element('textarea.code', {readOnly: true, rows: 8, 'aria-label': 'text to send'}),
          state = element('p', {}, hint('packing…'));
    const file = `${fileNameOf(title)}.json`, isWeb = location.protocol.startsWith('http');
    openDialog('Share',
        element('p', {},
            `${plural(all.length, 'card')} of “${title}”, with what is given and your notes on the cards. What was tried stays here.`),
        area, state,
        element('footer', {}, button('Copy the text', event => copy(area.value, event.currentTarget), {class: 'primary', autofocus: true}),
            button(`Download ${file}`, async () => {
                download(file, await bench.sessions.text(), 'application/json');
                replace(state, `Send ${file}. Who gets it opens workbench.html and drops the file on the page, or takes Open….`);
            }), isWeb && button('Copy the address', event => copy(location.href, event.currentTarget))));
    if (!all.length) {
        replace(state, 'There is no card yet.');
        return;
    }
    const packed = await bench.sessions.packed();
    area.value = `${title}: ${
        plural(
            all.length, 'card')} of the re workbench. Open workbench.html, copy all of this text, and press Ctrl+V there.\n#s=${packed}\n`;
    replace(state,
        hint(
            'Who gets the text opens workbench.html and presses Ctrl+V there, or Paste: all cards come, and each is judged anew there. The address of this page holds the same, but is one of this machine.'));
}
