// The whole chain as one picture, in a window with the buttons by which it leaves the page.
import {chainPicture} from '../views/chain_picture.js';
import {element, faulty, hint, replace} from '../views/dom.js';
import {fileNameOf} from '../texts/texts.js';
import {openWideDialog} from './dialogs.js';
import {pictureButtons} from '../views/picture_files.js';
import {titleOf} from '../cards/chains.js';

// `said` are the lines that were said of the chain.
export async function openChainPicture(bench, said) {
    const box = element('div.picture', {tabIndex: 0, role: 'group', 'aria-label': 'the chain as a picture'}, hint('drawing…')),
          name = fileNameOf(`${titleOf(bench.cards.path()[0])} chain`);
    openWideDialog(
        'The chain as a picture', box, element('footer', {}, pictureButtons('the chain', () => name, () => box.querySelector('svg'))));
    await chainPicture(bench, said).then(picture => replace(box, picture), error => replace(box, faulty(error.message)));
}
