// Pictures that leave the page: as SVG, as PNG and as TikZ, in files and by the clipboard. They are black on white, whatever the page is.
import {button, copy, download, element} from './dom.js';
import {say} from './messages.js';
import {svg} from './pictures.js';
import {tikzOf} from '../texts/tikz.js';

// A pixel of a picture is so many of its PNG, as long as this has no more than these on a side.
const SHARPNESS = 3, MOST_PIXELS = 8000;
const STYLE = `text { font: 13.5px monospace; fill: #111 } rect { fill: #fff; stroke: #333 } .line { fill: none; stroke: #333 }
.near { display: none } .head { fill: #333 } circle { fill: #fff; stroke: #333 } .passive { fill: #ddd } .small { font-size: 14px; fill: #555 }
.output, .heading { font-weight: 700 } .given { font-style: italic; fill: #555 }`;

const sizeOf = picture => picture.getAttribute('viewBox').split(' ').slice(2).map(Number);

// The picture as a text of its own, without the page's style, in pixels.
export function pictureFile(picture) {
    const copied = picture.cloneNode(true), [width, height] = sizeOf(picture);
    copied.removeAttribute('style');
    for (const [key, value] of Object.entries({xmlns: 'http://www.w3.org/2000/svg', width, height})) copied.setAttribute(key, value);
    copied.prepend(svg('style', {}, STYLE));
    return new XMLSerializer().serializeToString(copied);
}

export async function pngOf(picture) {
    const size = sizeOf(picture), scale = Math.min(SHARPNESS, MOST_PIXELS / Math.max(...size)),
          [width, height] = size.map(length => Math.ceil(length * scale)), image = new Image(), canvas = element('canvas', {width, height});
    image.src = `data:image/svg+xml;charset=utf-8,${encodeURIComponent(pictureFile(picture))}`;
    await image.decode();
    const context = canvas.getContext('2d');
    context.fillStyle = '#fff';
    context.fillRect(0, 0, width, height);
    context.drawImage(image, 0, 0, width, height);
    return new Promise((resolve, reject) => canvas.toBlob(blob => blob ? resolve(blob) : reject(new Error('it is too large'))));
}

// To be pasted into a picture, or into a text as SVG; where the browser copies no pictures, the SVG alone.
async function copyPicture(picture, from) {
    const text = pictureFile(picture);
    if (!globalThis.ClipboardItem) {
        await copy(text, from);
        return;
    }
    try {
        await navigator.clipboard.write(
            [new ClipboardItem({'image/png': pngOf(picture), 'text/plain': new Blob([text], {type: 'text/plain'})})]);
        say('Copied, as a picture and as SVG.');
    } catch { await copy(text, from); }
    from?.focus();
}

// `what` is said of the picture as in `the graph`, `name()` is that of its files, and `drawn()` answers it, or nothing where there is none yet.
export function pictureButtons(what, name, drawn, values = {}) {
    const act = (text, says, run) => button(text, async event => {
        const from = event.currentTarget, picture = drawn();
        if (!picture) return;
        await Promise.resolve(run(picture, from)).catch(error => say(`${what}: ${error.message}`, true));
    }, {title: says, 'aria-label': `${says}: ${what}`, ...values});
    return element('span.group.save', {role: 'group', 'aria-label': `${what} as a picture`},
        act('SVG', 'download as SVG', picture => download(`${name()}.svg`, pictureFile(picture), 'image/svg+xml')),
        act('PNG', 'download as PNG', async picture => download(`${name()}.png`, await pngOf(picture), 'image/png')),
        act('TikZ', 'copy as TikZ, for a paper', (picture, from) => copy(tikzOf(picture), from)),
        act('Copy', 'copy as a picture, and as SVG', copyPicture));
}
