// Where things stand: the page, the examples, the native program, and what the page holds.
import {spawnSync} from 'child_process';
import {readdirSync, readFileSync} from 'fs';
import {join} from 'path';
import {html, pageFolder, programsIn, unpacked} from '../held.mjs';

export {html, pageFile, pageFolder} from '../held.mjs';
export const examples = join(pageFolder, '../examples');
// The programs, built for this machine.
export const NATIVE = {
    re: process.env.RE || 're',
    explore: process.env.EXPLORE || 'explore'
};

export const namesOfPrograms = () => Object.keys(programsIn(html()));
export const wasmOf = name => unpacked(programsIn(html())[name]);

// What a program of this machine answers: {status, text}.
export function natively(program, words, input = '') {
    const {status, stdout} = spawnSync(NATIVE[program], words, {input, maxBuffer: 1 << 28});
    return {status, text: stdout.toString()};
}
export const re = (words, input) => natively('re', words, input);
export const answer = (words, input) => re(words, input).text;
// The lines of `explore why` behind that of `check`.
export const whyOf = text => natively('explore', ['why'], text).text.split('\n').slice(1).join('\n').trim();

// A text of a report with its formulas in words, as the page shows it: $C^{T + 1}$ as C^(T + 1).
export const withoutFormulas = text =>
    text.split('$').map((part, i) => i % 2 ? part.replace(/\{/g, '(').replace(/\}/g, ')') : part).join('');

export const example = name => readFileSync(join(examples, name), 'utf8');
export const namesIn = folder => readdirSync(join(examples, folder)).filter(name => name.endsWith('.txt')).sort();
// The gallery holds graphs too.
export const certificatesOfGallery = () => namesIn('gallery').filter(name => example(`gallery/${name}`).startsWith('=='));

// The tables of the catalogue as they stand in the examples: {'3-3-2': text}.
export function catalogueTables() {
    const folder = join(examples, 'catalogue'), names = readdirSync(folder).filter(name => /\.tsv(\.xz)?$/.test(name));
    return Object.fromEntries(
        names.map(name => [name.split('.')[0], spawnSync('xz', ['-dcf', join(folder, name)], {maxBuffer: 1 << 28}).stdout.toString()]));
}
export const linesOfTable = text => text.trimEnd().split('\n').map(line => line.split('\t'));
// What the columns behind a problem claim: [{line, shownBy}].
export const claimsOfLine = ([
    claim, by, identifiers, identifiersBy = ''
]) => [[claim, by], [identifiers && `with identifiers: ${identifiers}`, identifiersBy]].filter(([line]) => line).map(([line,
    commands]) => ({line, shownBy: commands ? commands.split('; ') : []}));

// Numbers from a seed, the same ones each time: random(n) is below n.
export function randomFrom(seed) {
    let state = seed;
    return n => {
        state = (state * 1103515245 + 12345) & 0x7fffffff;
        return (state >> 8) % n;
    };
}
