// A worker: runs the programs, and the page's own work on texts that may be large. The page sends the programs first.
import {runProgram} from './program.js';
import {describe, lineStarts, mapped, without, withArrow} from '../texts/problems.js';
import {findRelaxation, findRenaming} from '../texts/maps.js';
import {layout} from '../texts/layout.js';
import {packSession, readSession, sessionText, unpackSession} from '../keeping/sessions.js';
import {packKept, readKept} from '../keeping/kept.js';
import {blobOf, wholeState, wholeTexts} from './parcels.js';
import {catalogueLine} from '../texts/catalogue.js';
import {certificateAlone, readCertificate, stepLines} from '../texts/certificates.js';

const WORK = {
    describe,
    lineStarts,
    mapped,
    without,
    withArrow,
    findRelaxation,
    findRenaming,
    layout,
    blobOf,
    packSession: async state => packSession(await wholeState(state)),
    packKept: async ({rest, texts}) => packKept({rest, texts: await wholeTexts(texts)}),
    readKept,
    readSession,
    sessionText: async state => sessionText(await wholeState(state)),
    unpackSession,
    certificateAlone,
    readCertificate,
    stepLines,
    catalogueLine
};
const modules = new Map();
// Settled once this worker is ready for jobs.
let ready = Promise.resolve();

// Holds a lock as long as this worker lives, where the browser has locks for this page, so that the page is told when it is gone.
function hold(name) {
    return new Promise(resolve => {
        const held = () => {
            self.postMessage({holds: name});
            resolve();
            return new Promise(() => {});
        };
        if (self.navigator?.locks) navigator.locks.request(name, held).catch(resolve);
        else resolve();
    });
}

async function answer({program, words, input, isTold, work, args}) {
    if (work) return {value: await WORK[work](...args)};
    return runProgram(modules.get(program), program, words, input, isTold ? part => self.postMessage({part}) : undefined);
}

self.onmessage = async ({data}) => {
    if (data.programs) {
        for (const [name, program] of Object.entries(data.programs))
            modules.set(name, program instanceof WebAssembly.Module ? program : new WebAssembly.Module(program));
        ready = hold(data.lifeline);
        return;
    }
    await ready;
    try {
        self.postMessage(await answer(data));
    } catch (error) { self.postMessage({failure: error.message || String(error)}); }
};
