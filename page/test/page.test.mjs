// A user in a headless Chromium, with real clicks and keys. `node --test-name-pattern=WORDS page.test.mjs` picks sessions.
// `PICTURES=folder` keeps the pictures for the pages, and `SHOW=file` one of the page where a session failed.
import {mkdirSync} from 'fs';
import {join} from 'path';
import {openBrowser, wait} from './browser.mjs';
import {checked} from './checks.mjs';
import {User} from './user.mjs';
import {askedSessions} from './user/asked.mjs';
import {begunSessions} from './user/begun.mjs';
import {besideSessions} from './user/beside.mjs';
import {boundsSessions} from './user/bounds.mjs';
import {changesSessions} from './user/changes.mjs';
import {effortSessions} from './user/effort.mjs';
import {failuresSessions} from './user/failures.mjs';
import {givenSessions} from './user/given.mjs';
import {inAndOutSessions} from './user/in_and_out.mjs';
import {keptSessions} from './user/kept.mjs';
import {lateSessions} from './user/late.mjs';
import {numbersSessions} from './user/numbers.mjs';
import {picturesSessions} from './user/pictures.mjs';
import {placesSessions} from './user/places.mjs';
import {problemsSessions} from './user/problems.mjs';
import {searchingSessions} from './user/searching.mjs';
import {smallSessions} from './user/small.mjs';
import {wordsSessions} from './user/words.mjs';
import {seeingSessions} from './user/seeing.mjs';
import {sessionsSessions} from './user/sessions.mjs';
import {settlingSessions} from './user/settling.mjs';
import {tablesSessions} from './user/tables.mjs';

const page = await openBrowser({height: 900}), user = new User(page, null);
const pictures = process.env.PICTURES;
if (pictures) mkdirSync(pictures, {recursive: true});
// A picture of some elements of the page, with a margin; none: of all that is seen.
const picture = async (name, ...selectors) => {
    if (!pictures) return;
    // No mouse, no message.
    await page.mouse('mouseMoved', {x: 2, y: 2});
    await page.value(`document.querySelector('#message').className = ''`);
    await wait(400);
    if (!selectors.length) {
        await page.picture(join(pictures, `${name}.png`));
        return;
    }
    const box = await page.value(`(() => {
        const boxes = ${
        JSON.stringify(selectors)}.flatMap(selector => [...document.querySelectorAll(selector)].map(node => node.getBoundingClientRect()));
        const [left, top] = [Math.min(...boxes.map(box => box.left)) - 8, Math.min(...boxes.map(box => box.top)) - 8];
        return {x: left + scrollX, y: top + scrollY, width: Math.max(...boxes.map(box => box.right)) + 8 - left, height: Math.max(...boxes.map(box => box.bottom)) + 8 - top};
    })()`);
    await page.picture(join(pictures, `${name}.png`), box);
};

const sessions = {
    ...askedSessions,
    ...begunSessions,
    ...besideSessions,
    ...boundsSessions,
    ...changesSessions,
    ...effortSessions,
    ...failuresSessions,
    ...givenSessions,
    ...inAndOutSessions,
    ...keptSessions,
    ...lateSessions,
    ...numbersSessions,
    ...picturesSessions,
    ...placesSessions,
    ...problemsSessions,
    ...searchingSessions,
    ...seeingSessions,
    ...sessionsSessions,
    ...smallSessions,
    ...wordsSessions,
    ...settlingSessions,
    ...tablesSessions
};
for (const [name, session] of Object.entries(sessions)) {
    await checked(name, async checks => {
        user.checks = checks;
        try {
            await page.go();
            await session(user, page, checks, picture);
        } catch (error) {
            if (process.env.SHOW) await page.picture(process.env.SHOW);
            throw error;
        }
    });
}
await checked('no fault in the console, and nothing asked of the network', checks => {
    checks.equal('faults', page.faults(), []);
    checks.equal('requests', page.requests(), []);
});
await page.close();
