// A layout that is edited is the layout of the edited text; and other properties of texts by chance.
import { End, Refusal } from 'bisquemop';
import { expect, same, thrown } from './harness.mjs';
import { below, randomEdit, randomSettings, randomText, seed } from './chance.mjs';

const all = (layout) => [layout.text, [...layout.table], [...layout.index], layout.lines, layout.events, layout.dropped, layout.height];

function editTimes(library, text, settings, times) {
    const layout = library.lay(text, settings);
    for (let k = 0; k < times; k++) {
        const { a, b, inserted, after } = randomEdit(layout.text);
        const before = [...layout.table];
        const edited = below(2) === 0 ? layout.edit(a, b, inserted) : layout.change(after);
        same(`${JSON.stringify(after)} after an edit`, all(library.lay(after, settings)), all(layout));
        same('the lines before the first affected one', before.slice(0, 11 * edited.first), [...layout.table].slice(0, 11 * edited.first));
        same('the lines are those untouched, laid and moved', layout.lineCount, edited.first + edited.laid + edited.moved);
    }
}

function testOneByOne(library, text, settings) {
    same('lines laid one by one', library.layout(text, settings), [...library.lineByLine(text, settings)]);
}

function testProperties(library, text, settings) {
    const layout = library.lay(text, settings);
    same('the lines of a layout join to the text', text, layout.lines.map((line, k) => layout.lineText(k)).join(''));
    const last = layout.lines.flatMap((line, k) => (line.end === End.END_OF_TEXT ? [k] : []));
    same('the last line alone ends by the text', [layout.lineCount - 1], last);
    const dropped = layout.lines.reduce((sum, line) => sum + line.dropped, 0);
    same('the characters dropped', dropped, layout.dropped.reduce((sum, lost) => sum + [...lost.text].length, 0));
    same('the events, line by line, are all', library.layoutEvents(text, settings).events, layout.events.flat());
    const { lines, textLength, settings: read } = library.readFile(layout.file());
    same('a file reads back', [layout.lines, layout.bytes.length, layout.settings], [lines, textLength, read]);
    const h = 1 + below(4);
    same('pages', library.pages(text, h, settings).pages, layout.pages(h));
    same('which lines show', layout.lines.map((line, k) => layout.lineY(k).shows), layout.showing);
    const { index } = layout;
    same('each line is under its own y', [...index], Array.from(index, (y) => index[layout.findLine(y)]));
}

function testRefusedEdits(library) {
    const layout = library.lay('aé b', { width: 12 });
    const before = all(layout);
    const error = thrown(() => layout.edit(5, 5, Uint8Array.of(255)));
    same('what is not UTF-8 is told by its place in the whole text', [4, 5], [error?.number, error?.value]);
    same('an edit that cuts a character', 6, thrown(() => layout.edit(2, 3, Uint8Array.of(0xa8)))?.number);
    for (const [a, b, inserted] of [[3, 2, ''], [0, 9, ''], [2, 2, 'x'], [0, 0, 'x'.repeat(65536)]]) {
        expect('a bad edit is refused', thrown(() => layout.edit(a, b, inserted)) instanceof Refusal);
        same('a refused edit leaves all as it was', before, all(layout));
    }
    same('an edit that changes nothing', [layout.lineCount, before], [layout.change('aé b').lines, all(layout)]);
}

// Growing memory makes old views empty: a long text after a short one, and the short one again.
function testGrowing(library) {
    const short = library.lay('aa bb', { width: 12 });
    const before = all(short);
    const long = library.lay('a\n'.repeat(32767), { width: 12 });
    same('a long text has its lines', 32768, long.lineCount);
    same('what was laid before is as it was', before, all(short));
    long.edit(0, 0, 'b');
    same('a long text is edited', 'b', long.lineText(0)[0]);
    const { text, bytes, table, index } = short;
    bytes.fill(0);
    table.fill(0);
    index.fill(0);
    same('what is handed out is the caller\'s', [text, before], [short.text, all(short)]);
}

export function testLayouts(library) {
    seed(107);
    for (let k = 0; k < 300; k++) {
        const settings = randomSettings();
        const text = randomText(60);
        editTimes(library, text, settings, 3);
        testOneByOne(library, text, settings);
        testProperties(library, text, settings);
    }
    testRefusedEdits(library);
    testGrowing(library);
}
