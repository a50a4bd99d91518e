// The library comes from bytes, a URL or a Response, and says so where it does not.
import { readFileSync } from 'node:fs';
import { pathToFileURL } from 'node:url';
import { load } from 'bisquemop';
import { expect, same } from './harness.mjs';

const place = pathToFileURL('target/js/bisquemop.wasm');
const bytes = readFileSync(place);

async function refused(source) {
    try {
        await load(source);
    } catch (error) {
        return error.message;
    }
    return null;
}

// A module with none of the calls: the eight bytes that every module begins with.
const empty = bytes.subarray(0, 8);

export async function testLoading() {
    const buffer = new Uint8Array(bytes).buffer;
    const sources = { bytes, buffer, 'a URL': place, 'a URL in words': place.href, 'a Response': new Response(bytes), nothing: undefined };
    for (const [what, source] of Object.entries(sources)) {
        same(`loaded from ${what}`, 2, (await load(source)).layout('aa bb', { width: 12 }).length);
    }
    same('a Response that is none', 'the library could not be loaded: 404 ', await refused(new Response('', { status: 404 })));
    same('a module without the calls', 'the module has no call bisquemop_check_settings', await refused(empty));
    expect('bytes that are no module', (await refused(bytes.subarray(1)))?.includes('magic'));
    const imports = WebAssembly.Module.imports(new WebAssembly.Module(bytes));
    same('the module imports nothing', [], imports);
    expect('the module is small', bytes.length < 64 * 1024);
    const { WebAssembly: kept } = globalThis;
    delete globalThis.WebAssembly;
    same('where there is no WebAssembly', 'there is no WebAssembly here, and the library needs it', await refused(bytes));
    globalThis.WebAssembly = kept;
}
