// What workbench.html holds: its programs as WebAssembly modules, and what they were built from.
import {readFileSync} from 'fs';
import {dirname, join} from 'path';
import {fileURLToPath} from 'url';
import {inflateRawSync} from 'zlib';
import {bytesOf} from './src/texts/letters.js';

export const pageFolder = dirname(fileURLToPath(import.meta.url));
export const pageFile = join(pageFolder, 'workbench.html');
export const html = () => readFileSync(pageFile, 'utf8');

// The programs as they stand in the page: {name: packed}.
export const programsIn = page => JSON.parse(/<script [^>]*id="programs">([^]*?)<\/script>/.exec(page)[1]);
export const unpacked = packed => inflateRawSync(bytesOf(packed));

// What a program of the page was built from, as it says under Help.
export const sourceIn = (page, name) => new RegExp(`<code>${name}</code>, (built by .*?) \\(SHA-256`).exec(page)[1];
