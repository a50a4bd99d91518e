// What a call is given is looked at before anything is lent, once and by its own properties; what it answers cannot be changed behind
// a layout's back; and of what is too large no more is copied than has to be looked at.
import { Refusal, TEXT_MAX, limits } from 'bisquemop';
import { expect, same, thrown } from './harness.mjs';

const NARROW = { width: 30 };

// The number and the value of a refusal, or the class of another error.
function answerOf(call) {
    const error = thrown(call);
    return error instanceof Refusal ? [error.number, error.value] : (error?.constructor.name ?? null);
}

// ---- a caller's own bytes

// Bytes as node hands them out: their slice is no copy, and they may lie within a larger buffer.
function testBuffers(library) {
    const clue = Buffer.from('aaa bbb ccc');
    const layout = library.lay(clue, NARROW);
    const lines = library.lineByLine(clue, NARROW);
    const expected = library.layout('aaa bbb ccc', NARROW);
    clue.fill(10);
    same('a layout has its own copy of a Buffer', 'aaa bbb ccc', layout.text);
    same('so have the lines one by one', expected, [...lines]);
    layout.edit(0, 0, 'x');
    same('an edit is laid in that copy', [...library.layoutTable('xaaa bbb ccc', NARROW)], [...layout.table]);
    const handedOut = layout.bytes;
    same('plain bytes are handed out', Uint8Array.prototype, Object.getPrototypeOf(handedOut));
    handedOut.fill(10);
    same('they are a copy', 'xaaa bbb ccc', layout.text);
    const part = Buffer.from('..aa bb..').subarray(2, 7);
    same('a part of a buffer', library.layout('aa bb', NARROW), library.layout(part, NARROW));
    same('a file in a Buffer is read', library.readFile(layout.file()), library.readFile(Buffer.from(layout.file())));
}

// A class over bytes that says something else of itself.
class Odd extends Uint8Array {
    get length() {
        return 2;
    }
    slice() {
        return this;
    }
    subarray() {
        return this;
    }
}
function testSubclasses(library) {
    const odd = new Odd([97, 32, 98, 98]);
    same('bytes of a class of their own', 4, library.checkText(odd));
    const layout = library.lay(odd, NARROW);
    odd.fill(10);
    same('are copied', 'a bb', layout.text);
}

// ---- settings

const BAD_SETTINGS = [5, 0, true, false, '', 'ab', Symbol('s'), null, [], [5], new Map([['width', 30]]), new Uint8Array(3), () => 5];

function testSettings(library) {
    for (const given of BAD_SETTINGS) {
        same(`settings of ${String(given?.constructor?.name)} ${String(given)}`, 'TypeError', answerOf(() => library.lay('a', given)));
    }
    same('a promise of settings', 'TypeError', answerOf(() => library.layout('a', Promise.resolve(NARROW))));
    same('settings with no prototype', 30, library.checkSettings(Object.assign(Object.create(null), NARROW)).width);
    same('settings of what is inherited', 72, library.checkSettings(Object.create(NARROW)).width);
    same('a setting that is undefined', 72, library.checkSettings({ width: undefined }).width);
    expect('the limits are frozen', Object.values(limits).every(Object.isFrozen));
}

// What another program has put into the prototype of all objects.
function withPolluted(properties, use) {
    for (const [name, value] of Object.entries(properties)) {
        Object.defineProperty(Object.prototype, name, { get: () => value, set() {}, configurable: true });
    }
    try {
        return use();
    } finally {
        Object.keys(properties).forEach((name) => delete Object.prototype[name]);
    }
}

function testPolluted(library) {
    const text = 'aa bb cc';
    const ask = () => [library.layout(text), library.oneLine(text, { start: 0 }), library.pages(text, 1), library.tokens(text)];
    const refuse = () => thrown(() => library.layout(text, { width: 5000 })).message;
    const [expected, refused] = [ask(), refuse()];
    const odd = { width: 6, restEnd: 3, restCount: 2, start: 7, kind: 7, line: 7, settings: 7, setting: 'glyph', h: 0, lines: 1, given: 1 };
    same('a prototype of all objects is not read', [expected, refused], withPolluted(odd, () => [ask(), refuse()]));
    const missing = { inserted: 0 };
    const call = () => library.firstAffected(expected[0], { a: 0, b: 0 });
    same('nor for an edit', 'RangeError', withPolluted(missing, () => answerOf(call)));
}

// ---- a caller's code that runs within a call

// An object whose parts are asked for by code that calls the library itself.
function calling(library, parts) {
    const object = {};
    for (const [name, value] of Object.entries(parts)) {
        const get = () => {
            library.layout('zz '.repeat(40), { width: 12 });
            return value;
        };
        Object.defineProperty(object, name, { get, enumerable: true });
    }
    return object;
}

function testGetters(library) {
    const text = 'aa bb cc dd';
    const settings = { ...NARROW, wrap: 1 };
    const odd = calling(library, settings);
    const lines = library.layout(text, settings);
    const odds = lines.map((line) => calling(library, line));
    const index = library.index(lines, settings);
    const place = { start: 0, restEnd: 0, restCount: 0 };
    const edit = { a: 0, b: 0, inserted: 1 };
    const pages = library.pagesAgain(lines, 1, 0, []);
    const part = `x${text}`;
    for (const [call, [plain, called]] of Object.entries({
        layout: [() => library.layout(text, settings), () => library.layout(text, odd)],
        layoutEvents: [() => library.layoutEvents(text, settings), () => library.layoutEvents(text, odd)],
        open: [() => library.open(text, settings), () => library.open(text, odd)],
        oneLine: [() => library.oneLine(text, place, settings), () => library.oneLine(text, calling(library, place), odd)],
        lineByLine: [() => [...library.lineByLine(text, settings)], () => [...library.lineByLine(text, odd)]],
        firstAffected: [() => library.firstAffected(lines, edit), () => library.firstAffected(odds, calling(library, edit))],
        layAgain: [() => library.layAgain(part, lines, edit, settings), () => library.layAgain(part, odds, calling(library, edit), odd)],
        height: [() => library.height(lines, settings), () => library.height(odds, odd)],
        lineY: [() => library.lineY(lines, 1, settings), () => library.lineY(odds, 1, odd)],
        index: [() => library.index(lines, settings), () => library.index(odds, odd)],
        indexAgain: [() => library.indexAgain(lines, 1, index, settings), () => library.indexAgain(odds, 1, index, odd)],
        findLine: [() => library.findLine(lines, index, 9), () => library.findLine(odds, index, 9)],
        writeFile: [() => library.writeFile(lines, settings), () => library.writeFile(odds, odd)],
        choose: [() => library.choose(text, 'a', 1, settings), () => library.choose(text, 'a', 1, odd)],
        pages: [() => library.pages(text, 1, settings), () => library.pages(text, 1, odd)],
        pagesAgain: [() => library.pagesAgain(lines, 1, 1, pages), () => library.pagesAgain(odds, 1, 1, pages.map((page) => calling(library, page)))],
        columnsFit: [() => library.columnsFit(text, 9, settings), () => library.columnsFit(text, 9, odd)],
        columnsPlan: [() => library.columnsPlan(text, 9, settings), () => library.columnsPlan(text, 9, odd)],
    })) {
        same(`${call}, whose arguments call the library`, plain(), called());
    }
    const bad = calling(library, { ...settings, width: 5000 });
    same('a refusal names the setting that was read', 'width is 5000, and may be 0 to 4,096', thrown(() => library.lay(text, bad))?.message);
}

// ---- lines by number, and lists

function testLineNumbers(library) {
    const layout = library.lay('aa bb cc', NARROW);
    for (const line of ['0', '1', [0], [], 'length', 'map', '', -1, 0.5, NaN, 99, null, undefined, true, 0n, Symbol('s'), { valueOf: () => 0 }]) {
        same(`the text of line ${String(line)} of type ${typeof line}`, 'RangeError', answerOf(() => layout.lineText(line)));
        const none = line === 99 ? null : 'RangeError';
        same(`the y of line ${String(line)} of type ${typeof line}`, none, answerOf(() => layout.lineY(line)));
    }
    same('the text of a line', 'aa bb', layout.lineText(0).trim());
}

function testLists(library) {
    const lines = library.layout('aa bb cc', NARROW);
    for (const given of [5, 'ab', true, {}, new Map(), new Int32Array(11), { length: 1, forEach() {} }, new Uint8Array(11)]) {
        same(`lines that are ${String(given)}`, 'TypeError', answerOf(() => library.height(given)));
        same(`pages that are ${String(given)}`, 'TypeError', answerOf(() => library.pagesAgain(lines, 1, 0, given)));
    }
    same('no lines at all', 'TypeError', answerOf(() => library.height(null)));
}

// ---- what is handed out

function testFrozen(library) {
    const layout = library.lay('     not the baker', { ...NARROW, wrap: 0 });
    const before = JSON.stringify([layout.lines, layout.events, layout.dropped]);
    const { lines, events, dropped } = layout;
    const changes = [
        () => lines.pop(),
        () => lines.push(lines[0]),
        () => (lines[0].start = 9),
        () => delete lines[0].start,
        () => events.pop(),
        () => events[1].reverse(),
        () => (events[1][0].kind = 9),
        () => dropped.pop(),
        () => (dropped[0].text = 'yes'),
    ];
    changes.forEach((change, k) => expect(`what a layout hands out is not changed, ${k}`, thrown(change) instanceof TypeError));
    same('it is as it was', before, JSON.stringify([layout.lines, layout.events, layout.dropped]));
    const answered = library.layout('aa bb', NARROW);
    answered[0].start = 9;
    answered.pop();
    same('what a call answers is the caller\'s', library.lay('aa bb', NARROW).lines, library.layout('aa bb', NARROW));
}

// ---- what is too large

// A file of so many lines, each the one before it.
function fileOf(library, lines, end = [255, 0, 0]) {
    const small = library.lay('').file();
    const file = new Uint8Array(62 + 47 * lines + end.length);
    file.set(small.subarray(0, 62));
    for (let k = 0; k < lines; k++) {
        file.set(small.subarray(62, 109), 62 + 47 * k);
    }
    file.set(end, file.length - end.length);
    return file;
}

// So many lines as no layout has, and more: they are refused as shorter ones are.
function testLongFiles(library) {
    const full = library.lay('\n'.repeat(TEXT_MAX));
    same('the largest file', full.lines, library.readFile(full.file()).lines);
    const longer = new Uint8Array(full.file().length + 500);
    longer.set(full.file());
    same('bytes after its end', [9, full.file().length], answerOf(() => library.readFile(longer)));
    const old = [3, 40, 0, ...new Uint8Array(40), 255, 0, 0];
    for (const lines of [65537, 65538, 65539, 65540, 70000]) {
        const end = 62 + 47 * lines;
        same(`${lines} lines`, [5, 0], answerOf(() => library.readFile(fileOf(library, lines))));
        same(`${lines} lines and no end`, [9, end], answerOf(() => library.readFile(fileOf(library, lines, []))));
        same(`${lines} lines and half of one`, [9, end], answerOf(() => library.readFile(fileOf(library, lines, [3, 44, 0, 0]))));
        same(`${lines} lines and bytes after the end`, [9, end + 3], answerOf(() => library.readFile(fileOf(library, lines, [255, 0, 0, 0]))));
        same(`${lines} lines and an old one`, [11, end], answerOf(() => library.readFile(fileOf(library, lines, old))));
    }
    const settings = fileOf(library, 70000);
    settings[3] = 0;
    same('a bad setting before many lines', [1, 0], answerOf(() => library.readFile(settings)));
}

// A table of more lines than a text can have, whose first bad line is where the shorter one's is.
function testLongTables(library) {
    const full = library.layoutTable('\n'.repeat(TEXT_MAX));
    const row = full.subarray(full.length - 11);
    for (const more of [1, 2, 3, 4, 5000]) {
        const longer = new Uint32Array(full.length + 11 * more);
        longer.set(full);
        for (let k = 0; k < more; k++) {
            longer.set(row, full.length + 11 * k);
        }
        same(`a table of ${more} lines more`, [5, 65535], answerOf(() => library.height(longer)));
        same(`and half of one, ${more}`, [5, 0], answerOf(() => library.height(longer.subarray(0, longer.length - 5))));
        longer[11 * 40 + 3] = 7;
        same(`its first bad line, ${more}`, [5, 40], answerOf(() => library.firstAffected(longer, { a: 0, b: 0, inserted: 0 })));
    }
    const ys = new Int32Array(70000);
    same('more ys than lines', [10, 70000], answerOf(() => library.findLine(full, ys, 0)));
    same('more ys than need be', 65536, library.indexAgain(full, 0, ys).length);
    same('more pages than need be', 65536, library.pagesAgain(full, 1, 0, new Uint32Array(300000)).length);
}

// How much the memory of the process grows by a call, and how long it takes in milliseconds.
function costs(call) {
    const before = process.memoryUsage().rss;
    const begun = performance.now();
    call();
    return [process.memoryUsage().rss - before, performance.now() - begun];
}

function testCosts(library) {
    const size = 1.5e8;
    const bytes = new Uint8Array(size).fill(97);
    const numbers = new Uint32Array(bytes.buffer, 0, 3.7e7);
    const ys = new Int32Array(bytes.buffer, 0, 3.7e7);
    const table = library.layoutTable('a');
    for (const [what, call, answer] of [
        ['a file', () => library.readFile(bytes), [9, 0]],
        ['a text', () => library.layout(bytes), [3, size]],
        ['a layout', () => library.lay(bytes), [3, size]],
        ['lines one by one', () => library.lineByLine(bytes), [3, size]],
        ['an edit', () => library.lay('a').edit(0, 0, bytes), [3, size + 1]],
        ['a change', () => library.lay('a').change(bytes), [3, size]],
        ['a table', () => library.height(numbers), [5, 0]],
        ['an index', () => library.findLine(table, ys, 0), [10, 3.7e7]],
    ]) {
        let got = null;
        const [memory] = costs(() => (got = answerOf(call)));
        same(`${what} of 150 MB is refused`, answer, got);
        expect(`${what} of 150 MB is not copied: ${Math.round(memory / 1e6)} MB more`, memory < 5e7);
    }
    const halves = '\ud800'.repeat(5e6);
    for (const [what, call] of [['laid', () => library.layout(halves)], ['put in', () => library.lay('').edit(0, 0, halves)]]) {
        let got = null;
        const [, time] = costs(() => (got = answerOf(call)));
        same(`five million halves of pairs are refused, ${what}`, [3, 1.5e7], got);
        expect(`in a moment, also on a busy machine: ${Math.round(time)} ms`, time < 4000);
    }
    same('halves of pairs in a text that is not too long', [4, 2], answerOf(() => library.layout(`ab${'\udc00'.repeat(21000)}`)));
}

export function testArguments(library) {
    testBuffers(library);
    testSubclasses(library);
    testSettings(library);
    testPolluted(library);
    testGetters(library);
    testLineNumbers(library);
    testLists(library);
    testFrozen(library);
    testLongFiles(library);
    testLongTables(library);
    testCosts(library);
}
