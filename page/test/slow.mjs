// A program that takes its time: a WebAssembly module as program.js runs it, which writes parts of a text and goes round so many times behind
// each of them. For what is told while a program runs.

// Whole numbers as WebAssembly has them: signed, seven bits a byte.
function numberBytes(number) {
    const bytes = [];
    for (let rest = BigInt(number);;) {
        const byte = Number(rest & 127n);
        rest >>= 7n;
        if (rest === 0n && byte < 64) return [...bytes, byte];
        bytes.push(byte | 128);
    }
}
// Sizes are such numbers without a sign.
const sizeBytes = size => size < 128 ? [size] : [size & 127 | 128, ...sizeBytes(size >> 7)];
const sized = bytes => [...sizeBytes(bytes.length), ...bytes];
const listed = items => [...sizeBytes(items.length), ...items.flat()];
const named = name => sized([...Buffer.from(name)]);

const I32 = 0x7f, I64 = 0x7e, FUNCTION = 0x60;
const TYPES = 1, IMPORTS = 2, FUNCTIONS = 3, MEMORIES = 5, EXPORTS = 7, CODE = 10, DATA = 11;

// `parts` are {text, turns}.
export function slowProgram(parts) {
    let at = 0;
    const code = parts.flatMap(({text, turns}) => {
        const {length} = Buffer.from(text), from = at;
        at += length;
        // write(1, from, length), its answer let go.
        return [
            0x41, 1, 0x41, ...numberBytes(from), 0x41, ...numberBytes(length), 0x10, 0, 0x1a,
            // Counts down from `turns` to 0.
            0x42, ...numberBytes(turns), 0x21, 0, 0x03, 0x40, 0x20, 0, 0x42, 1, 0x7d, 0x22, 0, 0x42, 0, 0x52, 0x0d, 0, 0x0b
        ];
    });
    const sections = {
        [TYPES]: [[FUNCTION, 3, I32, I32, I32, 1, I64], [FUNCTION, 0, 1, I32]],
        [IMPORTS]: [[...named('host'), ...named('write'), 0, 0]],
        [FUNCTIONS]: [[1]],
        [MEMORIES]: [[0, 1]],
        [EXPORTS]: [[...named('memory'), 2, 0], [...named('__original_main'), 0, 1]],
        // One local number, and the exit code 0.
        [CODE]: [sized([1, 1, I64, ...code, 0x41, 0, 0x0b])],
        [DATA]: [[0, 0x41, 0, 0x0b, ...sized([...Buffer.from(parts.map(({text}) => text).join(''))])]],
    };
    return [
        0, ...Buffer.from('asm'), 1, 0, 0, 0, ...Object.entries(sections).flatMap(([id, items]) => [Number(id), ...sized(listed(items))])
    ];
}

// From now on the page runs this program in place of `explore` for a word, until it is opened anew. Workers get all programs when they begin, so
// those that are there end.
export const answerSlowly = (page, word, parts) => page.until(`(() => {
    if (engine.running.size || engine.waiting.length) return false;
    const bytes = new Uint8Array(${JSON.stringify(slowProgram(parts))}), start = engine.start.bind(engine);
    engine.programs.slow = {module: new WebAssembly.Module(bytes), bytes};
    engine.idle.splice(0).forEach(worker => worker.terminate());
    engine.answers.clear();
    engine.start = (program, words, ...rest) => start(words[0] === '${word}' ? 'slow' : program, words, ...rest);
    return true;
})()`);
