// cli.mjs answers as the native programs, byte for byte and with the same exit codes: on all rows, on arguments and streams that fail,
// and on inputs at the limit of 16,777,216 bytes. `JOBS` are run side by side.
import {spawn, spawnSync} from 'child_process';
import {closeSync, openSync} from 'fs';
import {join} from 'path';
import {checked} from './checks.mjs';
import {example, NATIVE, pageFolder} from './place.mjs';
import {rows} from './rows.mjs';

const SIDE_BY_SIDE = Number(process.env.JOBS || 3), MOST_BYTES = 16777216, cli = join(pageFolder, 'cli.mjs');

// {status, text} of a command, its output as bytes.
function run(command, words, input) {
    return new Promise(resolve => {
        const child = spawn(command, words, {stdio: ['pipe', 'pipe', 'pipe']}), parts = [];
        child.stdout.on('data', part => parts.push(part));
        child.on('close', status => resolve({status, text: Buffer.concat(parts)}));
        // A program that reads nothing closes its input.
        child.stdin.on('error', () => {});
        child.stdin.end(input);
    });
}

async function compare(checks, {program, words, input, name}) {
    const [here, there] = await Promise.all([run(process.execPath, [cli, program, ...words], input), run(NATIVE[program], words, input)]);
    checks.check(`${program} ${words.join(' ')} < ${name}: ${here.status}, natively ${there.status}`,
        here.status === there.status && here.text.equals(there.text));
}

for (const program of ['re', 'explore']) {
    await checked(`all rows of ${program}`, async (checks, context) => {
        const waiting = rows(program).values();
        let count = 0;
        await Promise.all(Array.from({length: SIDE_BY_SIDE}, async () => {
            for (const row of waiting) {
                await compare(checks, row);
                count++;
            }
        }));
        context.diagnostic(`${count} rows`);
    });
}

await checked('the limit of the input: a problem that ends there, and one byte more', async checks => {
    const problem = example('first/sinkless.txt'), filledTo = size => problem + '\n'.repeat(size - problem.length);
    for (const size of [MOST_BYTES, MOST_BYTES + 1])
        for (const program of ['re', 'explore']) {
            await compare(checks, {program, words: [program === 're' ? 'read' : 'last'], input: filledTo(size), name: `${size} bytes`});
        }
});

await checked('what a shell gives: an empty argument, streams that fail, arguments that are no text', checks => {
    const shell = (command, name) => {
        const [here, there] = [`node '${cli}' re`, `'${NATIVE.re}'`].map(re => spawnSync('bash', ['-c', command.replaceAll('RE', re)]));
        checks.check(`${name}: ${here.status}, natively ${there.status}`, here.status === there.status && here.stdout.equals(there.stdout));
    };
    shell(`RE '' < /dev/null`, 'an empty word');
    shell(`RE $'\\xff' < /dev/null`, 'an argument that is no text');
    shell(`RE read < /`, 'a folder in place of a file');
    shell(`RE family mis 3 2 0 > /dev/full`, 'a full device');
    shell(`(sleep 0.3; echo 'A B'; sleep 0.3; printf '\\nA B') | RE read`, 'an input that comes late');
    shell(`RE family mis 6 2 0 | RE lower 2 0 | RE check`, 'a pipe of three');
    for (const behind of ['', '; exit $?']) {
        shell(`RE family mis 3 2 0 >&-${behind}`, 'a closed output');
        shell(`RE read <&-${behind}`, 'a closed input');
        shell(`RE family mis 3 2 0 <&-${behind}`, 'a closed input that is not read');
        shell(`RE family mis 3 2 0 > /dev/null${behind}`, 'an output that is thrown away');
        shell(`RE read < /dev/null${behind}`, 'an empty input');
    }
    // Streams that another program than a shell throws away are open. By `_` a shell says what it started, also to the tests themselves.
    checks.equal('ignored', spawnSync(process.execPath, [cli, 're', 'family', 'mis', '3', '2', '0'], {
        stdio: ['ignore', 'ignore', 'ignore'],
        env: {...process.env, _: ''}
    }).status,
        0);
    const alone = spawnSync(process.execPath, [cli], {input: ''});
    checks.check(`alone it says how it is used: ${alone.stderr}`,
        alone.status === 2 && !alone.stdout.length &&
            alone.stderr.toString().startsWith('usage: node page/cli.mjs PROGRAM WORD.. < FILE\n'));
    checks.equal('no such program', spawnSync(process.execPath, [cli, 'what', 'check'], {input: ''}).status, 2);
});

await checked('a word that reads nothing does not wait for its input', checks => {
    const open = openSync('/dev/zero', 'r');
    checks.equal('nothing is read',
        spawnSync(process.execPath, [cli, 're', 'family', 'mis', '3', '2', '0'], {stdio: [open, 'pipe', 'inherit']}).status, 0);
    closeSync(open);
});
