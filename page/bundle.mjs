// Puts the sources, the programs and the examples into one file.
//
//     node bundle.mjs PAGE [NAME=PROGRAM.wasm=SOURCE..]
//
// SOURCE says what the program was built from: it is shown under Help. Without a program: those that PAGE holds, as it says of them.
import {execFileSync} from 'child_process';
import {createHash} from 'crypto';
import {existsSync, readdirSync, readFileSync, writeFileSync} from 'fs';
import {dirname, join} from 'path';
import {Script} from 'vm';
import {deflateRawSync} from 'zlib';
import {pageFolder, programsIn, sourceIn, unpacked} from './held.mjs';
import {lettersOf} from './src/texts/letters.js';
import {shortTable} from './src/texts/tables.js';

// What the file may hold beside its programs.
const LARGEST_REST = 370000;
const examples = join(pageFolder, '../examples');
const source = name => readFileSync(join(pageFolder, 'src', name), 'utf8');

// The modules that stand below one, each behind those that it imports.
function modulesBelow(root) {
    const order = [], seen = new Set();
    const visit = name => {
        if (seen.has(name)) return;
        seen.add(name);
        for (const [, way] of source(name).matchAll(/^import .*from '(\.\.?\/.+)';$/gm)) visit(join(dirname(name), way));
        order.push(name);
    };
    visit(root);
    return order;
}

// One script, without lines of import, export and comments, and without what stands before a line. A script has one room for names, so they
// have to differ: it is read once to see that.
function scriptOf(root) {
    const parts = modulesBelow(root).map(name => `// ---- ${name}\n` +
            source(name)
                .replace(/^\s*\/\/.*\n/gm, '')
                .replace(/^import [^;]*;\n/gm, '')
                .replace(/^export (?=const|let|function|async|class)/gm, '')
                .replace(/^ +/gm, ''));
    const script = parts.join('\n');
    new Script(`'use strict'; async () => {{${script}\n}}`, {filename: `the modules below ${root}, as one script`});
    return script;
}

// A style without comments and without the blanks that it doesn't need; strings stay as they are.
const shortStyle = style =>
    style.replace(/\/\*[^]*?\*\//g, '')
        .split(/("[^"]*")/)
        .map(part => part.startsWith('"') ? part : part.replace(/\s+/g, ' ').replace(/ ?([{};]) ?|([,:]) /g, '$1$2'))
        .join('')
        .trim();

const textsIn = folder => Object.fromEntries(
    readdirSync(join(examples, folder))
        .filter(name => name.endsWith('.txt'))
        .sort()
        .map(name => [name.replace('.txt', '').replaceAll('-', ' '), readFileSync(join(examples, folder, name), 'utf8')]));
const examplesHeld = () => ({
    'Problems': {'independent set': readFileSync(join(examples, 'first/independent.txt'), 'utf8'), ...textsIn('problems')},
    'Known bounds (certificates and graphs)': textsIn('gallery'),
});

// The tables of the catalogue, shortened and packed, where they stand there: {'3-3-2': packed}, by the numbers of labels and degrees.
function catalogueHeld() {
    const folder = join(examples, 'catalogue'),
          bytesOf = file => file.endsWith('.xz') ? execFileSync('xz', ['-dc', file], {maxBuffer: 1 << 28}) : readFileSync(file);
    const names = existsSync(folder) ? readdirSync(folder).filter(name => /^\d-\d-\d\.tsv(\.xz)?$/.test(name)).sort() : [];
    return Object.fromEntries(names.map(name => [name.slice(0, 5), packed(shortTable(String(bytesOf(join(folder, name)))))]));
}

const packed = bytes => lettersOf(deflateRawSync(bytes, {level: 9}));
const sha256 = (data, how) => createHash('sha256').update(data).digest(how);
const json = value => JSON.stringify(value).replaceAll('<', '\\u003c');
// No `</script` and no `<!--` may stand inside of a script.
const safe = text => text.replace(/<(?=\/script|!--)/gi, '\\x3c');

const [page, ...given] = process.argv.slice(2);

function programsGiven() {
    if (given.length)
        return given.map(part => {
            const [name, file, built] = part.split('=');
            return {name, wasm: readFileSync(file), built};
        });
    const held = readFileSync(page, 'utf8');
    return Object.entries(programsIn(held)).map(([name, wasm]) => ({name, wasm: unpacked(wasm), built: sourceIn(held, name)}));
}
const programs = programsGiven();
const start = safe(scriptOf('start.js')), main = scriptOf('main.js'), style = shortStyle(source('style.css'));
const parts = {
    'STYLE': style,
    'STYLE HASH': sha256(style, 'base64'),
    'START': start,
    'START HASH': sha256(start, 'base64'),
    'MAIN': packed(main),
    'MAIN HASH': sha256(main, 'base64'),
    'WORKER': packed(scriptOf('engine/worker.js')),
    'EXAMPLES': packed(JSON.stringify(examplesHeld())),
    'PROGRAMS': json(Object.fromEntries(programs.map(({name, wasm}) => [name, packed(wasm)]))),
    'PROGRAMS HELD': programs
                         .map(({name, wasm, built}) =>
                                  `<code>${name}</code>, ${built} (SHA-256 of the WebAssembly module: <code>${sha256(wasm, 'hex')}</code>)`)
                         .join('; ') +
        '.',
};
const htmlOf = () => source('index.html').replace(/^ +/gm, '').replace(/\/\*([A-Z ]+)\*\//g, (_, name) => parts[name]);

// The largest tables of the catalogue stay out of a file that would be too large.
const tables = catalogueHeld(), left = Object.keys(tables).sort((a, b) => tables[a].length - tables[b].length), out = [];
for (let html = '';; out.push(left.pop())) {
    parts.CATALOGUE = json(Object.fromEntries(Object.entries(tables).filter(([name]) => left.includes(name))));
    html = htmlOf();
    if (html.length - parts.PROGRAMS.length >= LARGEST_REST && left.length) continue;
    writeFileSync(page, html);
    console.log(`${page}: ${out.length ? `without the tables ${out.join(', ')}: ` : ''}${html.length} bytes`);
    break;
}
