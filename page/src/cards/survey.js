// Settles the problems of a list, a few at once, and keeps what came out until another list is asked.
import {readSettled, wholeLines} from '../texts/settled.js';
import {runTask} from '../engine/tasks.js';
import {Stopped} from '../engine/engine.js';

// One worker is left to what else the user asks for.
const AT_ONCE = 2;

export class Survey {
    // `onChange(row)` is told of each row that changes.
    constructor(engine) {
        Object.assign(this, {engine, rows: [], task: null, onChange: () => {}});
    }

    get isRunning() { return Boolean(this.task); }
    get count() { return this.rows.filter(row => row.claims || row.fault).length; }

    // `problems` are [{name, text}]; `effort` bounds what is tried.
    async start(problems, effort = 1) {
        const words = effort > 1 ? ['settle', String(effort)] : ['settle'], title = `${words.join(' ')}, a list of ${problems.length}`;
        // Another list may be asked before this one is done: then nothing more is told of it.
        const rows = this.rows = problems.map((problem, i) => ({...problem, at: i})), waiting = rows[Symbol.iterator]();
        const work = async task => {
            for (const row of waiting) {
                await this.settle(task, row, words);
                if (this.rows !== rows) return;
                task.state = `${this.count} of ${rows.length}`;
                this.onChange(row);
            }
        };
        await runTask(this.engine, title,
            async task => {
                this.task = task;
                await Promise.all(Array.from({length: AT_ONCE}, () => work(task)));
            })
            .catch(error => {
                if (!(error instanceof Stopped)) throw error;
            })
            .finally(() => {
                if (this.rows !== rows) return;
                this.task = null;
                this.onChange(null);
            });
    }

    stop() { this.task?.stop(); }

    // What the program says of one problem: the fault of its text, or the claims with what shows them; `begun` are those that it writes while it
    // searches on.
    async settle(task, row, words) {
        const onText = text => {
            row.begun = readSettled(wholeLines(text)).filter(({line}) => line);
            this.onChange(row);
        };
        const started = performance.now(), ask = async (program, given, text) => {
            const answer = await task.ask(program, given, text, program === 'explore' ? {onText} : {});
            if (answer.status > 1 || program === 're' && answer.status) throw new Error(answer.text.trim().split('\n', 1)[0]);
            return answer.text;
        };
        try {
            row.problem = await ask('re', ['read'], row.text);
            const said = await ask('explore', words, row.problem);
            Object.assign(row, {claims: readSettled(said), time: performance.now() - started});
        } catch (error) {
            if (error instanceof Stopped) throw error;
            row.fault = error.message;
        }
    }
}
