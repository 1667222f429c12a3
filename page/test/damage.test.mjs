// Damaged certificates: the page says of each what the native programs say of the very text, and of a refused one why. DAMAGED is their count.
import {openBrowser} from './browser.mjs';
import {checked} from './checks.mjs';
import {answer, certificatesOfGallery, example, randomFrom, whyOf} from './place.mjs';

const count = Number(process.env.DAMAGED || 100), random = randomFrom(5);
const names = [
    ...['sinkless-fixed', 'orientation-upper', 'orientation-lower', 'colouring-refused'].map(name => `first/${name}.txt`),
    ...certificatesOfGallery().filter(name => /-[23]/.test(name)).map(name => `gallery/${name}`)
];
const texts = names.map(example).filter(text => text.length < 4000);

function damaged(text) {
    const lines = text.split('\n'), at = random(lines.length), other = random(lines.length), i = random(Math.max(1, lines[at].length));
    const name = lines[at].match(/[A-Za-z0-9]/)?.[0];
    const ways = [
        () => lines.splice(at, 1),
        () => lines.splice(at, 0, lines[other]),
        () => {
            [lines[at], lines[other]] = [lines[other], lines[at]];
        },
        () => {
            lines[at] = lines[at].slice(0, i) + lines[at].slice(i + 1);
        },
        () => {
            if (name) lines[at] = lines[at].replace(name, lines[other].match(/[A-Za-z0-9]/)?.[0] || 'A');
        },
        () => {
            lines[at] = lines[at].split(' ').reverse().join(' ');
        },
    ];
    ways[random(ways.length)]();
    return lines.join('\n');
}

const page = await openBrowser(), said = {};
await page.go();
await checked(`${count} damaged certificates`, async (checks, context) => {
    for (let n = 0; n < count; n++) {
        const text = damaged(texts[n % texts.length]), wanted = answer(['check'], text).trim();
        const found = await page.value(`(async () => {
        bench.claim.verdict = null;
        const fault = await bench.sessions.openText(${JSON.stringify(text)}, 'damaged');
        if (fault) return fault.fault;
        for (let i = 0; i < 3000 && !bench.claim.verdict; i++) await new Promise(resolve => setTimeout(resolve, 20));
        return bench.claim.verdict?.line;
    })()`);
        checks.equal(text, found, wanted);
        if (wanted.startsWith('refused'))
            checks.equal(
                `why: ${text}`, await page.until(`document.querySelector('.card.failing .fault div div')?.textContent`), whyOf(text));
        const kind = wanted.replace(/^(\w+).*/s, '$1');
        said[kind] = (said[kind] || 0) + 1;
        if (n % 20 === 19) await page.go();
    }
    checks.equal('no fault in the console', page.faults(), []);
    context.diagnostic(Object.entries(said).map(([kind, times]) => `${kind} ${times}`).join(', '));
});
await page.close();
