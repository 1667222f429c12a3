// The programs as WebAssembly answer as the native ones, on all rows.
import {runProgram} from '../src/engine/program.js';
import {checked} from './checks.mjs';
import {natively, wasmOf} from './place.mjs';
import {rows} from './rows.mjs';

for (const program of ['re', 'explore']) {
    await checked(program, (checks, context) => {
        const module = new WebAssembly.Module(wasmOf(program));
        let count = 0;
        for (const {words, input, name} of rows(program)) {
            let here;
            try {
                here = runProgram(module, program, words, input);
            } catch (error) { here = {status: error.message, text: ''}; }
            const there = natively(program, words, input);
            checks.check(`${program} ${words.join(' ')} < ${name}: ${here.status}, natively ${there.status}`,
                here.status === there.status && here.text === there.text);
            count++;
        }
        context.diagnostic(`${count} rows`);
    });
}
