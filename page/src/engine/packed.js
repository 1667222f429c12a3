// What the file holds packed: a response to read as a text or as bytes.
import {bytesOf} from '../texts/letters.js';

export const unpacked = packed => new Response(new Blob([bytesOf(packed)]).stream().pipeThrough(new DecompressionStream('deflate-raw')));
