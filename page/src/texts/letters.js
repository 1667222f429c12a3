// Bytes as letters that may stand in a script and in a text of JSON: two of 91 letters for 13 bits, a last one alone for 6 bits or fewer.
const PRINTED = Array.from({length: 94}, (_, i) => String.fromCharCode(33 + i)).filter(letter => !'"<\\'.includes(letter)),
      BASE = PRINTED.length;
const BITS = 13, BITS_OF_ONE = 6;

export function lettersOf(bytes) {
    const letters = [];
    let bits = 0, held = 0;
    for (const byte of bytes) {
        held |= byte << bits;
        bits += 8;
        if (bits < BITS) continue;
        const pair = held & (1 << BITS) - 1;
        letters.push(PRINTED[pair % BASE], PRINTED[Math.floor(pair / BASE)]);
        held >>= BITS;
        bits -= BITS;
    }
    if (bits) letters.push(PRINTED[held % BASE]);
    if (bits > BITS_OF_ONE) letters.push(PRINTED[Math.floor(held / BASE)]);
    return letters.join('');
}

export function bytesOf(letters) {
    const valueOf = new Uint8Array(128), length = letters.length, odd = length % 2;
    PRINTED.forEach((letter, value) => valueOf[letter.charCodeAt(0)] = value);
    const bytes = new Uint8Array(((length - odd) / 2 * BITS + odd * BITS_OF_ONE) / 8);
    let bits = 0, held = 0, end = 0;
    for (let at = 0; at < length; at += 2) {
        held |= valueOf[letters.charCodeAt(at)] + (at + 1 < length ? valueOf[letters.charCodeAt(at + 1)] * BASE : 0) << bits;
        for (bits += at + 1 < length ? BITS : BITS_OF_ONE; bits >= 8; bits -= 8, held >>= 8) bytes[end++] = held & 255;
    }
    return bytes;
}
