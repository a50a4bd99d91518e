// Counts the cases of the tests of bisquemop.mjs, and prints those that fail.
import { isDeepStrictEqual, inspect } from 'node:util';

let passed = 0;
let failed = 0;

export function expect(what, holds) {
    if (holds) {
        passed++;
    } else {
        failed++;
        console.error(`failed: ${what}`);
    }
}

export function same(what, expected, got) {
    const holds = isDeepStrictEqual(got, expected);
    expect(holds ? what : `${what}: expected ${inspect(expected)}, got ${inspect(got)}`, holds);
}

// What a call throws, or null.
export function thrown(call) {
    try {
        call();
    } catch (error) {
        return error;
    }
    return null;
}

export function finish() {
    console.log(`${passed} passed, ${failed} failed`);
    process.exitCode = failed === 0 ? 0 : 1;
}
