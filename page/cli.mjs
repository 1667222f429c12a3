#!/usr/bin/env node
// The programs in a shell, without the toolchain: those that workbench.html holds, with the same bytes and the same exit codes.
//
//     node page/cli.mjs re check < FILE
//     node page/cli.mjs explore closure < FILE
import {readFileSync, readlinkSync, readSync, writeSync} from 'fs';
import {basename} from 'path';
import {html, programsIn, unpacked} from './held.mjs';
import {runOver} from './src/engine/program.js';

// The exit codes where a program isn't run at all, and where it breaks off.
const BAD_WORDS = 2, BROKEN_OFF = 70;
const INPUT = 0, OUTPUT = 1;

const said = text => writeSync(2, `cli.mjs: ${text}\n`);

// The arguments as bytes, since some may be no text. Where the system doesn't tell them, as Node reads them.
function argumentsGiven() {
    const count = process.argv.length - 2;
    try {
        const all = readFileSync('/proc/self/cmdline'), words = [];
        for (let start = 0, end; (end = all.indexOf(0, start)) >= 0; start = end + 1) words.push(all.subarray(start, end));
        return count ? words.slice(-count) : [];
    } catch { return process.argv.slice(2).map(word => Buffer.from(word)); }
}

// Whether a stream of a process is /dev/null, open for reading and for writing.
function isOpenedNull(owner, file) {
    try {
        const [, flags] = /^flags:\s*(\d+)$/m.exec(readFileSync(`/proc/${owner}/fdinfo/${file}`, 'utf8'));
        return readlinkSync(`/proc/${owner}/fd/${file}`) === '/dev/null' && (Number.parseInt(flags, 8) & 3) === 2;
    } catch { return false; }
}

// Whether a shell started this: it says so by `_`, or is the parent.
function isOfShell() {
    const names = [process.env._ || '', process.argv0, process.argv[1]].map(name => basename(name));
    try {
        if (/^(ba|da|z|k|a|fi)?sh$|^busybox$/.test(basename(readlinkSync(`/proc/${process.ppid}/exe`)))) return true;
    } catch { /* Another system. */
    }
    return names.slice(1).includes(names[0]);
}

// Where a shell closed a stream, as by `>&-`, Node opens /dev/null for it, in a way in which no shell does.
const isClosed = file => isOpenedNull('self', file) && isOfShell() && !isOpenedNull(process.ppid, file);

// A stream that has nothing at the moment, or no room, is asked again a little later.
function patiently(act) {
    for (;;) {
        try {
            return act();
        } catch (error) {
            if (error.code === 'EOF') return 0;
            if (error.code !== 'EAGAIN') return -1;
            Atomics.wait(new Int32Array(new SharedArrayBuffer(4)), 0, 0, 5);
        }
    }
}

const read = bytes => isClosed(INPUT) ? -1 : patiently(() => readSync(INPUT, bytes));
const write = bytes => isClosed(OUTPUT) ? -1 : patiently(() => writeSync(OUTPUT, bytes));

function main() {
    const programs = programsIn(html()), names = Object.keys(programs), [name = '', ...words] = argumentsGiven();
    if (!Object.hasOwn(programs, name.toString())) {
        if (name.length) said(`no program ${name}`);
        writeSync(2,
            `usage: node page/cli.mjs PROGRAM WORD.. < FILE\n\nPROGRAM is ${
                names.join(
                    ' or ')}; FILE is what it reads, and it prints what it answers, as in\n\n    node page/cli.mjs re check < FILE\n    node page/cli.mjs ${
                names.at(-1)} help\n`);
        return BAD_WORDS;
    }
    try {
        return runOver({read, write}, new WebAssembly.Module(unpacked(programs[name.toString()])), name.toString(), words);
    } catch (error) {
        said(`the program broke off: ${error.message}`);
        return BROKEN_OFF;
    }
}

process.exitCode = main();
