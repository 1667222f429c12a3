// Words of `explore` that the page offers where the program has them: one that it lacks is answered by the test in its place.
import {wordsIn} from '../src/engine/words.js';
import {wait} from './browser.mjs';
import {natively} from './place.mjs';

export const explored = wordsIn(natively('explore', ['help']).text);

// Gives the page words, with their answers {'settle': [status, text]} whatever is read, until the page is opened anew. `forms` are further
// ones as words.js has them, as `longest given`. What is sent is kept in `sent`, as [words, text].
export async function teach(page, answers, forms = []) {
    await page.value(`(() => {
        const taught = ${JSON.stringify(answers)}, start = engine.start.bind(engine);
        for (const words of [...Object.keys(taught).map(words => words.split(' ')[0]), ...${JSON.stringify(forms)}]) bench.words.add(words);
        window.sent = [];
        engine.start = (program, words, input, options) => {
            const given = program === 'explore' && taught[words.join(' ')];
            sent.push([words.join(' '), input]);
            return given ? {title: words.join(' '), started: 0, isOver: true, stop() {}, answer: Promise.resolve({status: given[0], text: given[1]})} : start(program, words, input, options);
        };
    })()`);
}

export const teachMissing = (page, answers) =>
    teach(page, Object.fromEntries(Object.entries(answers).filter(([words]) => !explored.has(words.split(' ')[0]))));

// The next answers to each of these commands, as `check`, or of the page's own work, as `work packKept`, are held until they are let go, also
// where the job is stopped meanwhile: they were on their way.
export const hold = (page, commands, times = 1) => page.value(`(() => {
    const late = new Map(${JSON.stringify(commands)}.map(command => [command, ${
    times}])), start = engine.start.bind(engine), startWork = engine.startWork.bind(engine);
    window.held ||= [];
    const holdOne = (job, names) => {
        const command = names.find(name => late.get(name));
        if (!command) return job;
        late.set(command, late.get(command) - 1);
        return {...job, stop() {}, answer: job.answer.then(answer => new Promise(resolve => held.push(() => resolve(answer))))};
    };
    engine.start = (program, words, ...rest) => holdOne(start(program, words, ...rest), [words[0], words.join(' ')]);
    engine.startWork = (work, ...rest) => holdOne(startWork(work, ...rest), ['work ' + work]);
})()`);
// So many answers are there, and held.
export const isHeld = (page, count = 1) => page.until(`held.length >= ${count}`);
// They come, or so many of them, and what follows of them.
export async function letGo(page, count = 99) {
    await page.value(`held.splice(0, ${count}).forEach(go => go())`);
    await wait(700);
}
