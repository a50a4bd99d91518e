// The names and numbers of the binding are those of the header, its types name all that it has, and its version is the repository's.
// It is run in the repository's folder.
import { readFileSync } from 'node:fs';
import * as bisquemop from 'bisquemop';
import { expect, same } from './harness.mjs';

const read = (path) => readFileSync(path, 'utf8');
const header = read('include/bisquemop.h');

function enumOf(name, prefix) {
    const body = header.match(new RegExp(`enum bisquemop_${name} \\{([^}]*)\\}`))[1];
    const pairs = body.matchAll(new RegExp(`BISQUEMOP_${prefix}(\\w+) = (\\d+)`, 'g'));
    return Object.fromEntries([...pairs].map(([, key, number]) => [key, Number(number)]));
}

function testNumbers() {
    const { OK, ...refusals } = enumOf('refusal', '');
    same('a call that is done answers 0', 0, OK);
    same('the refusals', refusals, { ...bisquemop.Refused });
    const prefixes = { Alignment: 'ALIGN_', Vertical: 'VERTICAL_', Wrap: 'WRAP_', End: 'END_', Kind: 'KIND_', Drawn: 'DRAWN_', Which: '' };
    for (const [mine, prefix] of Object.entries(prefixes)) {
        same(mine, enumOf(mine.toLowerCase(), prefix), { ...bisquemop[mine] });
    }
    const struct = header.match(/struct bisquemop_settings \{([^}]*)\}/)[1];
    same('the settings, in order', [...struct.matchAll(/u?int32_t (\w+);/g)].map(([, name]) => name), Object.keys(bisquemop.limits));
    const limit = (name) => Number(header.match(new RegExp(`#define BISQUEMOP_${name} \\(?(-?\\d+)`))?.[1] ?? 0);
    for (const name of ['glyph', 'width', 'tab', 'spacing', 'paragraph', 'base', 'height', 'top']) {
        same(`the limits of ${name}`, [limit(`${name.toUpperCase()}_MIN`), limit(`${name.toUpperCase()}_MAX`)], bisquemop.limits[name]);
    }
    same('the longest text', limit('TEXT_MAX'), bisquemop.TEXT_MAX);
}

const camel = (name) => name.toLowerCase().replace(/_(.)/g, (match, letter) => letter.toUpperCase());

// What a record's numbers are called is what the header calls their columns, in its order.
function testColumns(library) {
    const { lines, events } = library.layoutEvents('a');
    const [page] = library.pages('a', 1).pages;
    const [token] = library.tokens('a');
    for (const [name, record] of Object.entries({ line: lines[0], event: events[0], token, page })) {
        const columns = Object.keys(enumOf(`${name}_column`, `${name.toUpperCase()}_`)).map(camel);
        same(`the columns of a ${name}`, columns, Object.keys(record));
    }
}

function testCalls(library) {
    const calls = [...header.matchAll(/^uint32_t bisquemop_(\w+)\(/gm)].map(([, name]) => camel(name));
    same('the calls of the header', 21, calls.length);
    const types = read('bindings/js/bisquemop.d.ts');
    for (const call of calls) {
        expect(`there is ${call}`, typeof library[call] === 'function');
    }
    for (const method of Object.getOwnPropertyNames(Object.getPrototypeOf(library)).filter((name) => name !== 'constructor')) {
        expect(`the types have ${method}`, types.includes(`    ${method}(`));
    }
    for (const name of Object.keys(bisquemop)) {
        expect(`the types have ${name}`, new RegExp(`^export (const|class|function) ${name}\\b`, 'm').test(types));
    }
    for (const name of Object.getOwnPropertyNames(Object.getPrototypeOf(library.lay(''))).filter((one) => one !== 'constructor')) {
        expect(`the types have a layout's ${name}`, new RegExp(`^    (readonly )?${name}[(:]`, 'm').test(types));
    }
}

export function testHeader(library) {
    testNumbers();
    testColumns(library);
    testCalls(library);
    same('the version', read('VERSION').trim(), JSON.parse(read('bindings/js/package.json')).version);
    same('the version of what was built', read('VERSION').trim(), JSON.parse(read('target/js/package.json')).version);
}
