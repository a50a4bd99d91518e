// What the binding answers is what the library for this machine answers, refusals too: every call, over cases by chance. The program is
// tests/js/answers.c.
import { spawnSync } from 'node:child_process';
import { Refusal } from 'bisquemop';
import { same, expect } from './harness.mjs';
import { below, oneOf, randomEdit, randomSettings, randomText, seed } from './chance.mjs';

const bytes = (text) => new TextEncoder().encode(text);
const hex = (text) => `.${Buffer.from(text).toString('hex')};`;

// A case: most are good, and each thing that can be bad is now and then.
function randomCase() {
    const settings = randomSettings();
    if (below(12) === 0) {
        settings[oneOf(Object.keys(settings))] = oneOf([0, 2, 4, 65, 4097, 4294967295]);
    }
    if (settings.top > 0x7fffffff) {
        settings.top = -4097;
    }
    const string = randomText(40);
    const edit = randomEdit(string);
    const text = bytes(string);
    if (text.length > 0 && below(12) === 0) {
        text[below(text.length)] = below(256);
    }
    const moved = below(8) === 0 ? 1 : 0;
    const hasRest = below(3) === 0;
    return {
        settings,
        h: below(5),
        edit: { a: edit.a, b: edit.b + moved, inserted: bytes(edit.inserted) },
        from: { start: below(text.length + 2), restEnd: hasRest ? below(text.length + 2) : 0, restCount: hasRest ? below(4) : 0 },
        y: below(120) - 30,
        text,
        short: bytes(randomText(12)),
    };
}

function caseLine({ settings, h, edit, from, y, text, short }) {
    const numbers = [...Object.values(settings), h, edit.a, edit.b, from.start, from.restEnd, from.restCount, y];
    return [...numbers, hex(text), hex(edit.inserted), hex(short)].join(' ');
}

// A call as the program prints it. `told` answers the value and what was written.
function told(call, ask) {
    try {
        const [value, ...written] = ask();
        return [call, 0, value ?? 'none', ...written].join(' ');
    } catch (error) {
        if (!(error instanceof Refusal)) {
            throw error;
        }
        const handedOut = error.settings ? Object.values({ ...error.settings, top: error.settings.top >>> 0 }) : [];
        return [call, error.number, error.value, ...handedOut].join(' ');
    }
}
const counted = (records) => [records.length, ...records.flatMap(Object.values)];

function answersOfText(library, { settings, from, text }) {
    return [
        told('tokens', () => counted(library.tokens(text))),
        told('events', () => {
            const { lines, events } = library.layoutEvents(text, settings);
            return [lines.length, ...events.flatMap(Object.values)];
        }),
        told('one_line', () => {
            const { line, next } = library.oneLine(text, from, settings);
            const after = next ?? { start: text.length, restEnd: 0, restCount: 0 };
            return [after.start, ...Object.values(line), after.restEnd, after.restCount];
        }),
        told('layout', () => counted(library.layout(text, settings))),
    ];
}

function answersOfTable(library, { settings, from, y }, lines) {
    let file = new Uint8Array();
    let ys = [];
    return [
        told('height', () => [library.height(lines, settings)]),
        told('index', () => {
            ys = library.index(lines, settings);
            return [ys.length, ...ys];
        }),
        told('find_line', () => [library.findLine(lines, ys, y)]),
        told('write_file', () => {
            file = library.writeFile(lines, settings);
            return [file.length, ...file];
        }),
        told('read_file', () => {
            if (file.length > 0 && from.start % 2 === 1) {
                file[from.start % file.length] ^= 1;
            }
            const read = library.readFile(file);
            return [read.lines.length, ...Object.values({ ...read.settings, top: read.settings.top >>> 0 })];
        }),
    ];
}

function answersAgain(library, { settings, edit, text }, lines) {
    const numbers = { ...edit, inserted: edit.inserted.length };
    let first = null;
    const affected = told('first_affected', () => {
        first = library.firstAffected(lines, numbers);
        return [first];
    });
    if (first === null) {
        return [affected];
    }
    const edited = Buffer.concat([text.subarray(0, edit.a), edit.inserted, text.subarray(edit.b)]);
    const again = told('lay_again', () => {
        const { lines: after, laid } = library.layAgain(edited.subarray(lines[first].start), lines, numbers, settings);
        return [after.length, laid, ...after.flatMap(Object.values)];
    });
    return [affected, again.startsWith('lay_again 0 ') ? again : `${again} 0`];
}

function answersOfLists(library, { settings, h, text, short }) {
    return [
        told('pages', () => {
            const { lines, pages } = library.pages(text, h, settings);
            return [lines.length, ...pages.flatMap(Object.values)];
        }),
        told('choose', () => {
            const { length, which, leftOut } = library.choose(text, short, h, settings);
            return [length, which, leftOut];
        }),
        told('columns_fit', () => [library.columnsFit(text, h, settings) ? 1 : 0]),
        told('columns_plan', () => [library.columnsPlan(text, h, settings)]),
    ];
}

function answers(library, given) {
    const ofText = answersOfText(library, given);
    const layout = ofText[3];
    const lines = layout.startsWith('layout 0 ') ? library.layout(given.text, given.settings) : [];
    const ofTable = answersOfTable(library, given, lines);
    return [...ofText, ...ofTable, layout, ...answersAgain(library, given, lines), ...answersOfLists(library, given)];
}

export function testNative(library, program, cases) {
    seed(31);
    const given = Array.from({ length: cases }, randomCase);
    const run = spawnSync(program, { input: given.map((one) => `${caseLine(one)}\n`).join(''), encoding: 'utf8', maxBuffer: 1 << 28 });
    expect('the program for this machine ends well', run.status === 0);
    const native = run.stdout.trimEnd().split('\n');
    let at = 0;
    const numbers = new Set();
    for (const one of given) {
        const here = answers(library, one);
        same(`the answers to ${caseLine(one)}`, native.slice(at, at + here.length), here);
        at += here.length;
        here.forEach((line) => numbers.add(line.split(' ', 2).join(' ')));
    }
    same('every answer of the program was compared', native.length, at);
    const wanted = 'layout 1,layout 2,layout 4,one_line 5,first_affected 6,lay_again 4,read_file 9,pages 1,choose 4';
    for (const refused of wanted.split(',')) {
        expect(`there was a case with ${refused}`, numbers.has(refused));
    }
}
