// Runs a program that was compiled to WebAssembly: one instance for each run.

// The exit code of `name words..`, the words as bytes. `read(bytes)` puts the next bytes of standard input there and answers how many,
// `write(bytes)` takes what is written; both answer -1 where they fail. The bytes are the program's own, so they are read at once.
export function runOver({read, write}, module, name, words) {
    const texts = [new TextEncoder().encode(name), ...words];
    let memory = null;
    const bytesAt = (pointer, size) => new Uint8Array(memory.buffer, Number(pointer), Number(size));
    const host = {
        read: (_file, pointer, size) => BigInt(read(bytesAt(pointer, size))),
        write: (_file, pointer, size) => BigInt(write(bytesAt(pointer, size))),
        argument(place, pointer, size) {
            const text = texts[Number(place)];
            if (!text) return -1n;
            if (text.length > Number(size)) return -2n;
            bytesAt(pointer, text.length).set(text);
            return BigInt(text.length);
        },
    };
    const {exports} = new WebAssembly.Instance(module, {host});
    memory = exports.memory;
    return exports.__original_main();
}

// {status, text}: the exit code, and what was written, of `name words..` with the text `input` on standard input. `onPart(part)` is told of each
// part as soon as it is written.
export function runProgram(module, name, words, input, onPart = () => {}) {
    const encoder = new TextEncoder(), taken = encoder.encode(input), given = [], decoder = new TextDecoder();
    let at = 0;
    const read = bytes => {
        const part = taken.subarray(at, at + bytes.length);
        bytes.set(part);
        at += part.length;
        return part.length;
    };
    const write = bytes => {
        const part = decoder.decode(bytes, {stream: true});
        given.push(part);
        onPart(part);
        return bytes.length;
    };
    const status = runOver({read, write}, module, name, words.map(word => encoder.encode(word)));
    return {status, text: given.join('') + decoder.decode()};
}
