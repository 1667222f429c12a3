// Pictures that leave the page, as SVG, PNG and TikZ, in files and by the clipboard; and the whole chain as one of them.
import {example} from '../place.mjs';
import {explored} from '../teaching.mjs';
import {drawn, MIS} from '../user.mjs';

const quoted = value => JSON.stringify(value);
// Files are held by the page in place of the disk, {name: blob}, and what is copied in place of the clipboard.
const watch = page => page.value(`(() => {
    window.files = {}; window.copied = null; window.clipped = null;
    const make = URL.createObjectURL.bind(URL);
    URL.createObjectURL = blob => { window.lastBlob = blob; return make(blob); };
    document.addEventListener('click', event => { const link = event.target.closest('a[download]'); if (link) { event.preventDefault(); files[link.download] = lastBlob; } }, true);
    navigator.clipboard.writeText = async text => { window.copied = text; };
    navigator.clipboard.write = async ([item]) => { window.clipped = item; };
})()`);
const fileText = (page, name) => page.until(`files[${quoted(name)}]?.text()`);
// {width, height, dark, light}: the size of a PNG, and how many of its pixels are nearly black and white.
const pngOf = (page, blob) => page.until(`(async () => {
    const blob = await (${blob});
    if (!blob) return null;
    const image = await createImageBitmap(blob), canvas = new OffscreenCanvas(image.width, image.height), context = canvas.getContext('2d');
    context.drawImage(image, 0, 0);
    const {data} = context.getImageData(0, 0, image.width, image.height), found = {type: blob.type, width: image.width, height: image.height, dark: 0, light: 0};
    for (let i = 0; i < data.length; i += 4) {
        if (data[i + 3] === 255 && data[i] < 90) found.dark++;
        if (data[i + 3] === 255 && data[i] > 240) found.light++;
    }
    return found;
})()`);
const copied = async page => {
    const text = await page.until('window.copied');
    await page.value('window.copied = null');
    return text;
};

// All ways out of one picture: `box` holds its buttons, and `name` is that of its files.
async function leaves(page, checks, box, name, picture) {
    const size = await page.value(`document.querySelector(${quoted(picture)}).getAttribute('viewBox').split(' ').slice(2).map(Number)`);
    await page.click(`${box} button`, 'SVG');
    const svg = await fileText(page, `${name}.svg`);
    checks.check(`${name}: SVG of its own, in pixels`,
        svg.startsWith('<svg') && svg.includes(`width="${size[0]}"`) && svg.includes('<style') && !svg.includes('rem"'));
    await page.click(`${box} button`, 'PNG');
    const png = await pngOf(page, `files[${quoted(`${name}.png`)}]`);
    checks.check(`${name}: PNG, black on white: ${quoted(png)}`,
        png.type === 'image/png' && Math.abs(png.width - 3 * size[0]) <= 3 && Math.abs(png.height - 3 * size[1]) <= 3 && png.dark > 300 &&
            png.light > png.width * png.height / 3);
    await page.click(`${box} button`, 'TikZ');
    const tikz = await copied(page), count = await page.value(`document.querySelectorAll(${quoted(`${picture} text`)}).length`);
    checks.check(`${name}: TikZ`, tikz.includes('\\begin{tikzpicture}') && !/undefined|NaN/.test(tikz));
    checks.equal(`${name}: each of its texts`, tikz.split('\\node').length - 1, count);
    await page.click(`${box} button`, 'Copy');
    const clipped = await pngOf(page, `window.clipped?.getType('image/png')`);
    checks.equal(`${name}: the clipboard has the same`, [clipped.width, clipped.height, clipped.dark], [png.width, png.height, png.dark]);
    checks.equal(`${name}: and as a text`, await page.value(`window.clipped.getType('text/plain').then(blob => blob.text())`), svg);
    await page.value('window.clipped = null');
    return tikz;
}

export const picturesSessions = {
    async 'diagrams leave the page as pictures'(user, page, checks) {
        // Dark on the page, and black on white where they leave it.
        await page.value(`document.documentElement.dataset.theme = 'dark'`);
        await user.openProblem(...MIS);
        await watch(page);
        for (const side of ['active', 'passive'])
            await leaves(page, checks, `.card.last figure[data-side=${side}] .save`, `problem-0-${side}`,
                `.card.last figure[data-side=${side}] svg`);
        checks.check('a browser without pictures on its clipboard copies the SVG',
            await page.value(`(() => { window.ClipboardItem = undefined; return true; })()`));
        await page.click('.card.last figure[data-side=active] .save button', 'Copy');
        checks.check('as a text', (await copied(page)).startsWith('<svg'));
        await page.value('delete document.documentElement.dataset.theme');
    },

    async 'graphs and trees leave the page as pictures'(user, page, checks) {
        await user.openText(example('gallery/maximal-matching-3-upper.txt'));
        await page.until(`!document.querySelector('#algorithm').hidden`);
        await watch(page);
        await page.click('#algorithm');
        await page.until(`document.querySelector('dialog svg.run')`);
        await leaves(page, checks, 'dialog .save', 'run', 'dialog svg.run');
        await page.key('Escape');
        if (!explored.has('solve')) return;
        await page.value(`bench.settling.draw('A^3\\n\\nA^2\\n== graph\\n1.1 2.1\\n1.2 2.2\\n1.3 2.3\\n')`);
        await page.until(`document.querySelector('dialog svg.graph text.output')`);
        const tikz = await leaves(page, checks, 'dialog .save', 'graph', 'dialog svg.graph');
        checks.equal('with its solution', tikz.split('{A}').length - 1, 6);
    },

    async 'the whole chain as one picture'(user, page, checks) {
        await user.openProblem(...MIS);
        await user.step(2);
        await user.select('A', 'C');
        await user.actOnSelected('Merge into C');
        const line = await user.verdict();
        await page.until(`bench.cards.path().length === 3 && ${drawn}`);
        await watch(page);
        await page.until('bench.claim.verdict?.line');
        await page.click('#certificate');
        await page.click('dialog footer button', 'Picture');
        await page.until(`document.querySelector('dialog svg.chain')`);
        const said = await page.value(`[...document.querySelectorAll('dialog svg.chain text')].map(node => node.textContent)`),
              now = await page.value('bench.claim.verdict.line');
        checks.check(`what was said of it: ${line}`, said.includes(now));
        for (const [at, card] of (
                 await page.value(`bench.cards.path().map(card => document.querySelector('#card-' + card.id + ' .title').textContent)`))
                 .entries())
            checks.check(`card ${at}: ${card}`, said.some(text => text.endsWith(card)));
        checks.check('what leads to the last one', said.some(text => text.includes('A → C')));
        checks.equal('its diagrams', await page.value(`document.querySelectorAll('dialog svg.chain .node').length`),
            await page.value(`document.querySelectorAll('#chain svg.diagram .node').length`));
        const lines = await page.value(`bench.linesOf(bench.cards.path().at(-1)).then(({active, passive}) => [...active, ...passive])`);
        checks.check('its constraints', lines.every(text => said.includes(text)));
        await leaves(page, checks, 'dialog .save', 'm-3-chain', 'dialog svg.chain');
    },
};
