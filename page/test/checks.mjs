// Tests of node:test that go on behind what fails: each is run to its end, and what failed is told together.
import assert from 'node:assert/strict';
import {test} from 'node:test';

export class Checks {
    constructor() { this.failed = []; }

    check(what, is) {
        if (!is) this.failed.push(what);
        return Boolean(is);
    }

    equal(what, found, wanted) {
        const [a, b] = [found, wanted].map(value => JSON.stringify(value));
        return this.check(a === b ? what : `${what}: ${a?.slice(0, 300)} in place of ${b?.slice(0, 300)}`, a === b);
    }
}

// `run(checks, context)` is one test; `context.diagnostic(text)` says more of it.
export const checked = (name, run) => test(name, async context => {
    const checks = new Checks();
    try {
        await run(checks, context);
    } catch (error) { checks.failed.push(error.message); }
    assert.deepEqual(checks.failed, []);
});
