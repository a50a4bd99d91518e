// Refusals in words, and mistakes of the program that are none.
import { Refusal, defaults, limits } from 'bisquemop';
import { expect, same, thrown } from './harness.mjs';

function refuses(what, call, number, name, value, message) {
    const error = thrown(call);
    expect(`${what} is refused`, error instanceof Refusal && error instanceof Error);
    same(what, [number, name, value, message], [error?.number, error?.name, error?.value, error?.message]);
    return error;
}

function testSettings(library) {
    for (const [name, [least, most]] of Object.entries(limits)) {
        same(`the least ${name} is good`, least, library.checkSettings({ [name]: least })[name]);
        same(`the most ${name} is good`, most, library.checkSettings({ [name]: most })[name]);
        for (const given of [least - 1, most + 1, 2 ** 32 + least, -(2 ** 32) + least, 2 ** 53]) {
            const error = thrown(() => library.lay('a', { [name]: given }));
            const number = name === 'alignment' || name === 'vertical' ? 2 : 1;
            same(`${name} of ${given} is refused`, [number, name], [error?.number, error?.setting]);
            expect(`${name} of ${given} is named`, error?.message.startsWith(`${name} is ${given}, and`));
        }
    }
    same('what is not given is the default', { ...defaults }, library.checkSettings());
    refuses('a width', () => library.lay('a', { width: 5000 }), 1, 'SETTING_OUT_OF_RANGE', 0, 'width is 5000, and may be 0 to 4,096');
    refuses('an alignment', () => library.lay('a', { alignment: 4 }), 2, 'UNKNOWN_ALIGNMENT', 4,
        'alignment is 4, and may be 0 (left), 1 (centre), 2 (right) or 3 (justified)');
    refuses('no lines', () => library.pages('a', 0), 1, 'SETTING_OUT_OF_RANGE', 0, 'the number of lines is 0, and has to be 1 at least');
    refuses('no lines again', () => library.pagesAgain(library.layout('a'), 0, 0, []), 1, 'SETTING_OUT_OF_RANGE', 0,
        'the number of lines is 0, and has to be 1 at least');
}

function testTexts(library) {
    const long = 'x'.repeat(65536);
    const tooLong = 'the text has 65,536 bytes, and may have 65,535 at most';
    for (const [call, ask] of Object.entries({
        checkText: () => library.checkText(long),
        tokens: () => library.tokens(long),
        layout: () => library.layout(long),
        layoutEvents: () => library.layoutEvents(long),
        open: () => library.open(long),
        choose: () => library.choose('', long, 1),
        pages: () => library.pages(long, 1),
        columnsFit: () => library.columnsFit(long, 1),
        columnsPlan: () => library.columnsPlan(long, 1),
        lay: () => library.lay(long),
        lineByLine: () => library.lineByLine(long),
    })) {
        refuses(`a long text in ${call}`, ask, 3, 'TEXT_TOO_LONG', 65536, tooLong);
    }
    same('a text as long as may be', 65535, library.checkText(long.slice(1)));
    const notUtf8 = 'the text is not UTF-8: it goes wrong after its first 2 bytes';
    refuses('a byte that is no UTF-8', () => library.layout(Uint8Array.of(97, 98, 255)), 4, 'NOT_UTF8', 2, notUtf8);
    refuses('half of a pair', () => library.layout('ab\ud83dc'), 4, 'NOT_UTF8', 2, notUtf8);
    refuses('the other half', () => library.layout('ab\ude00'), 4, 'NOT_UTF8', 2, notUtf8);
    same('a whole pair', 6, library.checkText('ab\u{1f600}'));
}

function testTables(library) {
    const lines = library.layout('aa\nbb\ncc', { width: 30 });
    const spoiled = lines.map((line, k) => (k === 1 ? { ...line, end: 2 } : line));
    const badLine = 'line 1 of the table is not well formed';
    refuses('a bad table', () => library.height(spoiled), 5, 'BAD_LINE', 1, badLine);
    refuses('a bad table and an edit', () => library.firstAffected(spoiled, { a: 0, b: 0, inserted: 0 }), 5, 'BAD_LINE', 1, badLine);
    refuses('half a line', () => library.height(new Uint32Array(5)), 5, 'BAD_LINE', 0, 'line 0 of the table is not well formed');
    refuses('no line', () => library.index([]), 5, 'BAD_LINE', 0, 'line 0 of the table is not well formed');
    refuses('a start inside a character', () => library.oneLine('é', { start: 1 }), 5, 'BAD_LINE', 0,
        'no line of this text starts there, or with such a rest');
    const badEdit = 'the edit does not fit: it ends before it starts, lies past the text, or cuts a character';
    refuses('a bad edit', () => library.firstAffected(lines, { a: 2, b: 1, inserted: 0 }), 6, 'BAD_EDIT', 0, badEdit);
    refuses('a short index', () => library.findLine(lines, [0, 1], 0), 10, 'BAD_INDEX', 2, 'the index has 2 ys for 3 lines');
    refuses('an index in disorder', () => library.findLine(lines, [0, 9, 5], 0), 10, 'BAD_INDEX', 2,
        'the y of line 2 is smaller than the one before it');
}

function testFiles(library) {
    const file = library.lay('aa', { width: 30 }).file();
    const changed = (at, byte) => file.map((old, k) => (k === at ? byte : old));
    refuses('no file', () => library.readFile(new Uint8Array()), 9, 'BAD_FIELD', 0, 'the layout file has a bad field at byte 0');
    refuses('a bad field', () => library.readFile(changed(55, 7)), 9, 'BAD_FIELD', 55, 'the layout file has a bad field at byte 55');
    refuses('a bad setting in a file', () => library.readFile(changed(3, 0)), 1, 'SETTING_OUT_OF_RANGE', 0,
        'a setting is out of its range');
    refuses('a bad alignment in a file', () => library.readFile(changed(39, 9)), 2, 'UNKNOWN_ALIGNMENT', 9,
        'an alignment is 9, which is unknown');
    const old = Uint8Array.of(...file.subarray(0, 62), 3, 40, 0, ...new Uint8Array(40), 255, 0, 0);
    refuses('an old line', () => library.readFile(old), 11, 'OLD_ENTRY', 62,
        'the layout file is an old one: the line at byte 62 has ten numbers, and lines now have eleven');
    const retired = refuses('a retired setting', () => library.readFile(changed(47, 1)), 12, 'RETIRED_SETTING', 0,
        'the layout file has trailing spaces on, which is retired: its settings can be used, its lines cannot');
    same('its settings are handed out', library.checkSettings({ width: 30 }), retired?.settings);
}

function testMistakes(library) {
    const lines = library.layout('aa');
    for (const [what, call, kind] of [
        ['a setting of 1.5', () => library.lay('a', { width: 1.5 }), TypeError],
        ['a setting that is a string', () => library.lay('a', { width: '30' }), TypeError],
        ['a setting that is no number', () => library.lay('a', { width: NaN }), TypeError],
        ['a setting that there is not', () => library.lay('a', { widht: 30 }), TypeError],
        ['a text that is a number', () => library.lay(5), TypeError],
        ['an edit below 0', () => library.firstAffected(lines, { a: -1, b: 0, inserted: 0 }), RangeError],
        ['an edit of 33 bits', () => library.firstAffected(lines, { a: 0, b: 2 ** 32, inserted: 0 }), RangeError],
        ['a line with a number missing', () => library.height([{ start: 0 }]), RangeError],
        ['a y that is no number', () => library.findLine(lines, [0], 'top'), RangeError],
        ['a line that is not there', () => library.lay('a').lineText(1), RangeError],
    ]) {
        const error = thrown(call);
        expect(`${what} is a ${kind.name}`, error instanceof kind && !(error instanceof Refusal));
    }
}

export function testRefusals(library) {
    testSettings(library);
    testTexts(library);
    testTables(library);
    testFiles(library);
    testMistakes(library);
}
