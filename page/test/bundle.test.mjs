// The file: made of these sources, closed to the network, and without a way for a text to become markup.
import {createHash} from 'crypto';
import {spawnSync} from 'child_process';
import {existsSync, mkdtempSync, readdirSync, readFileSync, rmSync, writeFileSync} from 'fs';
import {tmpdir} from 'os';
import {join} from 'path';
import {Script} from 'vm';
import {deflateRawSync} from 'zlib';
import {checked} from './checks.mjs';
import {sourceIn, unpacked} from '../held.mjs';
import {lettersOf} from '../src/texts/letters.js';
import {shortTable, wholeTable} from '../src/texts/tables.js';
import {catalogueTables, html, namesOfPrograms, pageFolder, wasmOf} from './place.mjs';

const LARGEST_REST = 370000, LARGEST = 1050000;
const text = html(), rest = text.length - /id="programs">([^]*?)<\/script>/.exec(text)[1].length,
      built = /This file holds <span class="build">([^]*?)<\/span>/.exec(text)[1];

await checked('its size and what it holds', (checks, context) => {
    checks.check(`at most 0.37 MB beside its programs: ${rest} of ${text.length}`, rest < LARGEST_REST);
    // Programs that are built without their proofs are larger.
    checks.check(`at most 1.05 MB: ${text.length}`, text.length <= LARGEST || built.includes('without running its proof'));
    checks.check(`its commit is written into it: ${built}`, /from commit [0-9a-f]{40}\b/.test(built));
    checks.equal('the programs', namesOfPrograms(), ['re', 'explore']);
    for (const name of namesOfPrograms())
        checks.check(
            `the module of ${name} is the one that is named`, built.includes(createHash('sha256').update(wasmOf(name)).digest('hex')));
    context.diagnostic(built.includes('without running its proof') ? 'built without its proof' : 'built with its proof');
});

await checked('made anew from its sources', checks => {
    const folder = mkdtempSync(join(tmpdir(), 'page-')), again = join(folder, 'again.html'), file = name => join(folder, `${name}.wasm`);
    // Into an empty folder, of the programs as modules.
    for (const name of namesOfPrograms()) writeFileSync(file(name), wasmOf(name));
    const made = (...words) => {
        const {status, stdout} = spawnSync('node', [join(pageFolder, 'bundle.mjs'), again, ...words]);
        return `${status} ${stdout.toString().endsWith(' bytes\n')} ${existsSync(again) && readFileSync(again, 'utf8') === text}`;
    };
    checks.equal('bundle.mjs makes the same file in an empty folder',
        made(...namesOfPrograms().map(name => `${name}=${file(name)}=${sourceIn(text, name)}`)), '0 true true');
    // Over a file whose own modules were lost, of the programs that it holds.
    writeFileSync(again, text.replace(/<script type="module">[^]*?<\/script>/, '<script type="module"></script>'));
    checks.equal('and over a page with other modules', made(), '0 true true');
    rmSync(folder, {recursive: true});
});

await checked('a table that is not unpacked stops it', checks => {
    // A program xz that writes all of a table, and then says that it failed.
    const folder = mkdtempSync(join(tmpdir(), 'page-')), again = join(folder, 'again.html'),
          real = spawnSync('which', ['xz']).stdout.toString().trim();
    writeFileSync(join(folder, 'xz'), `#!/bin/sh\n${real} "$@"\nexit 1\n`, {mode: 0o755});
    writeFileSync(again, text);
    const {status, stderr} =
        spawnSync('node', [join(pageFolder, 'bundle.mjs'), again], {env: {...process.env, PATH: `${folder}:${process.env.PATH}`}});
    checks.check(`its exit code: ${status}`, status !== 0 && stderr.toString().includes('xz'));
    checks.check('the file is as before', readFileSync(again, 'utf8') === text);
    rmSync(folder, {recursive: true});
});

await checked('green is what is accepted, red what is refused', checks => {
    const style = readFileSync(join(pageFolder, 'src/style.css'), 'utf8');
    // The hues of both in each of the places where colours are named: light, dark, and paper.
    const named = name => [...style.matchAll(new RegExp(`--${name}: #([0-9a-f]{6})`, 'g'))].map(
        ([, hex]) => [0, 2, 4].map(i => parseInt(hex.slice(i, i + 2), 16)));
    checks.check('--good is green', named('good').length === 4 && named('good').every(([r, g, b]) => g > r && g > b));
    checks.check('--bad is red', named('bad').length === 4 && named('bad').every(([r, g, b]) => r > g && r > b));
    const colourOf = selector =>
        new RegExp(`${selector.replaceAll('.', '\\.').replaceAll(' ', '\\s+')} \\{[^}]*?(?:color|border-top-color): var\\(--(\\w+)\\)`)
            .exec(style)
            ?.[1];
    checks.equal('where they are used',
        ['#claim.accepted', '#claim.refused', '.accepted #verdict .line', '.refused #verdict .line', '.good', '.faulty', '.fault'].map(
            colourOf),
        ['good', 'bad', 'good', 'bad', 'good', 'bad', 'bad']);
});

await checked('the style is that of the source', checks => {
    const [, held] = /<style>([^]*?)<\/style>/.exec(text), source = readFileSync(join(pageFolder, 'src/style.css'), 'utf8');
    // Each with what stands in strings, and without comments and all other blanks.
    const parts = style =>
        style.replace(/\/\*[^]*?\*\//g, '').split(/("[^"]*")/).map(part => part.startsWith('"') ? part : part.replace(/\s/g, '')).join('');
    checks.check('but for blanks and comments', parts(held) === parts(source));
    checks.check(`shorter: ${held.length} of ${source.length}`, held.length < source.length - 2000);
});

await checked('the catalogue is that of the examples', checks => {
    const held = JSON.parse(/<script [^>]*id="catalogue">([^]*?)<\/script>/.exec(text)[1]), tables = catalogueTables();
    for (const [name, table] of Object.entries(tables)) {
        // One that is left out has no room.
        if (held[name]) checks.check(name, wholeTable(unpacked(held[name]).toString()) === table);
        else checks.check(`${name} has no room`, rest + lettersOf(deflateRawSync(shortTable(table), {level: 9})).length >= LARGEST_REST);
    }
    checks.check('no other tables', Object.keys(held).length > 0 && Object.keys(held).every(name => tables[name]));
});

await checked('the policy: no network, no other scripts', checks => {
    // The policy that the browser keeps: no network, no other scripts.
    const policy = /Content-Security-Policy" content="([^"]*)"/.exec(text)[1],
          start = /<script type="module">([^]*)<\/script>\n<\/body>/.exec(text)[1],
          main = unpacked(/<script [^>]*id="main">([^]*?)<\/script>/.exec(text)[1]).toString();
    checks.check('nothing by default', policy.startsWith("default-src 'none'; "));
    checks.check('no address in the policy', !/https?:|\*/.test(policy));
    const hashes = [...policy.matchAll(/'sha256-([^']*)'/g)].map(([, hash]) => hash),
          hashOf = script => createHash('sha256').update(script).digest('base64');
    checks.equal('the scripts that may run, and the style', hashes, [start, main, /<style>([^]*?)<\/style>/.exec(text)[1]].map(hashOf));
    checks.check(`the first one only unpacks the other: ${start.length}`, start.length < 3000 && main.length > 100000);
    checks.check('no other inline script', !policy.includes('unsafe-inline') && !policy.includes("'unsafe-eval'"));
});

await checked('sources', checks => {
    // Sources: no address, no markup from texts, short files and functions.
    for (const name of readdirSync(join(pageFolder, 'src'), {recursive: true}).filter(file => /\.\w+$/.test(file))) {
        const source = readFileSync(join(pageFolder, 'src', name), 'utf8'), lines = source.split('\n');
        checks.check(`${name}: no address`, !/https?:\/\/(?!www\.w3\.org\/2000\/svg)/.test(source));
        checks.check(`${name}: no markup from texts`,
            !/innerHTML|outerHTML|insertAdjacentHTML|document\.write|setHTML|parseFromString|createContextualFragment|\beval\(|new Function|javascript:/
                 .test(source));
        checks.check(`${name}: under 800 lines`, lines.length < 800);
        if (!name.endsWith('.js')) continue;
        checks.equal(`${name}: functions of at most 60 lines`, longFunctions(lines), []);
        checks.equal(`${name}: no text goes on behind blanks, since bundle.mjs leaves these out`, textLines(source), []);
    }
});

await checked('the folders of the sources', checks => {
    // Of each folder the modules that README names there.
    const named = {},
          rows = [...readFileSync(join(pageFolder, 'README.md'), 'utf8').matchAll(/^\| (`\w+`|itself|) ?\| (`[^|]*`) \| [^|]* \|$/gm)];
    let folder = '';
    for (const [, name, modules] of rows) {
        folder = name === 'itself' ? '.' : name.replaceAll('`', '') || folder;
        (named[folder] ||= []).push(...modules.match(/\w+/g).map(module => `${module}.js`));
    }
    checks.equal('seven rows, with the folder itself', Object.keys(named).length, 7);
    for (const [name, modules] of Object.entries(named))
        checks.equal(`${name}: as README has it`, readdirSync(join(pageFolder, 'src', name)).filter(file => file.endsWith('.js')).sort(),
            modules.sort());
});

// Lines that begin with a blank within a text of several lines: a bracket there is no fault.
function textLines(source) {
    const lines = source.replace(/^import [^;]*;\n/gm, '').replace(/^export (?=const|let|function|async|class)/gm, '').split('\n');
    return lines.filter((line, at) => {
        if (!line.startsWith(' ') || /^ *\/\//.test(line)) return false;
        try {
            new Script(`async () => {${lines.map((other, i) => i === at ? `)${other}` : other).join('\n')}\n}`);
            return true;
        } catch { return false; }
    });
}

// Top-level functions and methods that are longer, by their first lines.
function longFunctions(lines) {
    const found = [];
    for (const indent of ['', '    ']) {
        for (let i = 0; i < lines.length; i++) {
            if (!new RegExp(`^${indent}(?:export )?(?:async )?(?:function\\*? \\w+|(?!if|for|while|switch)[\\w$]+)\\s*\\(.*\\{$`)
                     .test(lines[i]))
                continue;
            const end = lines.findIndex((line, k) => k > i && line.startsWith(`${indent}}`));
            if (end - i > 60) found.push(lines[i].trim());
        }
    }
    return found;
}
