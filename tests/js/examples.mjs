// Layouts that the rules' pages and the C tests have, and what can be asked of them (rule 8, rule 9, rule 11, rule 12, rule 13).
import { Alignment, Drawn, End, Kind, Which, Wrap } from 'bisquemop';
import { expect, same } from './harness.mjs';

const laid = (width, wrap = Wrap.DROP) => ({ glyph: 6, width, tab: 24, spacing: 10, paragraph: 3, base: 8, height: 40, wrap });
const rows = (records) => records.map((record) => Object.values(record));

function testIndent(library) {
    const settings = laid(30);
    const { lines, events } = library.layoutEvents('     not the baker', settings);
    same('an indent as wide as the box drops "not"', [
        [0, 0, 0, 3, 0, 6, 0, 0, 3, 9, 0],
        [8, 0, 0, 3, 0, 6, 0, 24, 0, 19, 8],
        [13, 0, 0, 2, 0, 6, 0, 30, 0, 19, 13],
    ], rows(lines));
    same('its events', [
        [Drawn.SPACE, 0, 5, 5, 30, 0],
        [Drawn.SPACE, 8, 9, 1, 6, 0],
        [Drawn.PRINTED, 9, 12, 0, 18, 6],
        [Drawn.SPACE, 12, 13, 1, 0, 24],
        [Drawn.PRINTED, 13, 18, 0, 30, 0],
    ], rows(events));
    const layout = library.lay('     not the baker', settings);
    same('the word that is lost', [{ line: 0, count: 3, start: 5, end: 8, text: 'not' }], layout.dropped);
    same('the events of each line', [1, 3, 1], layout.events.map((line) => line.length));
    same('the text of each line', ['     not', ' the ', 'baker'], [0, 1, 2].map((line) => layout.lineText(line)));
    same('nothing is lost where words wait', [], library.lay('     not the baker', laid(30, Wrap.WAIT)).dropped);
}

function testOthers(library) {
    same('the empty text has one line', [[0, 0, 0, 2, 0, 6, 0, 0, 0, 1, 0]], rows(library.layout('', laid(30))));
    same('a cut run leaves a rest', [4, 6, 2], Object.values(library.layout('abc   d', laid(18))[1]).slice(0, 3));
    const justified = { ...laid(51), alignment: Alignment.JUSTIFIED, leading: 0 };
    same('justified spaces', [7, 1], Object.values(library.layout('aa bb cc dd', justified)[0]).slice(5, 7));
    const lost = library.lay('   é😀', laid(18)).dropped;
    same('characters of two and four bytes are counted as characters', [{ line: 0, count: 2, start: 3, end: 9, text: 'é😀' }], lost);
    const glued = library.lay('ab\u00a0\u00adcd', laid(18));
    same('a print of no text belongs to its own line', [3, 2], glued.events.map((line) => line.length));
    const tokens = [[Kind.WORD, 0, 2, 0], [Kind.WHITESPACE, 2, 4, 2], [Kind.BREAK, 4, 6, 0], [Kind.NEW_LINE, 6, 7, 0]];
    same('tokens', tokens, rows(library.tokens('ab  \u00ad\n')));
}

function testPlaces(library) {
    const layout = library.lay('aa\nbb\ncc', laid(30));
    same('the height', 34, layout.height);
    same('the index', [0, 13, 26], [...layout.index]);
    same('the line under a y', [null, 0, 0, 1, 2, 2], [-1, 0, 12, 13, 26, 999].map((y) => layout.findLine(y)));
    same('a line\'s y', [{ y: 26, shows: true }, null], [layout.lineY(2), layout.lineY(3)]);
    same('a line below the box does not show', { y: 26, shows: false }, library.lineY(layout.lines, 2, { ...laid(30), height: 33 }));
    same('a box top below 0', [-5, 8, 21], [...library.index(layout.table, { ...laid(30), top: -5 })]);
    same('the end of a line', [End.NEW_LINE, End.NEW_LINE, End.END_OF_TEXT], layout.lines.map((line) => line.end));
}

function testLists(library) {
    const settings = laid(30);
    const { lines, pages } = library.pages('aa\nbb\ncc', 2, settings);
    same('pages', [{ line: 0, start: 0, end: 6 }, { line: 2, start: 6, end: 8 }], pages);
    same('pages of a table', pages, library.pagesAgain(lines, 2, 0, []));
    same('pages from a later line on', pages, library.pagesAgain(lines, 2, 2, pages));
    const long = { which: Which.LONG_TEXT, length: 5, text: 'aa\nbb', leftOut: 0 };
    same('a long text that has room', long, library.choose('aa\nbb', 'c', 2, settings));
    const short = { which: Which.SHORT_TEXT, length: 2, text: 'é', leftOut: 2 };
    same('a long text that has none', short, library.choose('aa\nbb', 'é\nf', 1, { ...settings, width: 0, glyph: 1 }));
    expect('a width that is enough', library.columnsFit('not the baker', 3, laid(30)));
    expect('a width that is not', !library.columnsFit('     not the baker', 3, laid(30)));
    same('the smallest width', 30, library.columnsPlan('not the baker', 3, laid(4096)));
    same('where there is none', null, library.columnsPlan('a\nb', 1, laid(0)));
}

// The smallest file of docs/LAYOUT-FILE.md.
function testFiles(library) {
    const settings = library.checkSettings({ ...laid(30), top: -5, alignment: 1, vertical: 2 });
    const file = library.lay('', settings).file();
    const number = (n) => [n & 255, (n >> 8) & 255, (n >> 16) & 255, (n >> 24) & 255];
    const line = [0, 0, 0, 2, 15, 6, 0, 0, 0, 1, 0];
    const given = [6, 30, 24, 10, 3, 8, 40, -5, 1, 2, 1, 0, 0];
    const expected = [[1, 52, 0], given.map(number), [2, 4, 0], number(0), [3, 44, 0], line.map(number), [255, 0, 0]];
    same('the smallest file', expected.flat(2), [...file]);
    const read = library.readFile(file);
    same('it is read back', { settings, textLength: 0, lines: [line] }, { ...read, lines: rows(read.lines) });
}

export function testExamples(library) {
    testIndent(library);
    testOthers(library);
    testPlaces(library);
    testLists(library);
    testFiles(library);
}
