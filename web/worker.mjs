// What runs beside the page, in a Worker: the library, and the layouts of what is shown. The page asks by name and gets rows of numbers;
// what the library refuses comes back as a refusal. Nothing of the page waits for it.
import { Drawn, Refusal, load } from './bisquemop.mjs';

let loading; // the library comes with the first message
let library;
let layouts = new Map(); // by wrap setting: the one that is set, and the other where both are shown

// ---- what is asked for

// Lays a text anew, or by what has been edited; without a text it only lists anew. Where the library refuses, all stays as it was.
function show({ text, settings, compare, h, fresh }) {
    library.checkSettings(settings);
    library.columnsFit('', h);
    const wraps = compare ? [0, 1] : [settings.wrap];
    let edits = new Map();
    if (fresh) {
        layouts = new Map(wraps.map((wrap) => [wrap, library.lay(text, { ...settings, wrap })]));
    } else if (text !== undefined) {
        edits = new Map([...layouts].map(([wrap, layout]) => [wrap, layout.change(text)]));
    }
    const laid = [...layouts].map(([wrap, layout]) => viewOf(wrap, layout, edits.get(wrap), h));
    return { laid, fits: library.columnsFit(layouts.get(settings.wrap).bytes, h, settings) };
}

const find = ({ wrap, y }) => layouts.get(wrap).findLine(y);
const plan = ({ wrap, h, settings }) => library.columnsPlan(layouts.get(wrap).bytes, h, settings);
const write = ({ wrap }) => layouts.get(wrap).file();
function read({ bytes }) {
    const { settings, textLength, lines } = library.readFile(bytes);
    return { settings, textLength, table: rows(lines) };
}
const CALLS = { show, find, plan, write, read };

// ---- a layout, as numbers

const rows = (records) => Uint32Array.from(records.flatMap(Object.values));
const printsSomething = (events) => events.some((event) => event.kind === Drawn.PRINTED && event.end > event.start);

// All of a layout that is shown. `ends` says of each line how many events there are up to its end; `hidden` how many lines print
// something and do not show.
function viewOf(wrap, layout, edit, h) {
    const { settings, bytes, table, index, showing, events, dropped, height } = layout;
    let count = 0;
    const ends = Uint32Array.from(events, (line) => (count += line.length));
    const hidden = events.filter((line, k) => !showing[k] && printsSomething(line)).length;
    const lost = rows(dropped.map(({ line, count, start, end }) => ({ line, count, start, end })));
    const shows = Uint8Array.from(showing, Number);
    return { wrap, settings, bytes, table, index, shows, ends, events: rows(events.flat()), lost, pages: rows(layout.pages(h)), height, hidden, edit };
}

// ---- messages

function answered({ call, parts }) {
    try {
        return { answer: CALLS[call](parts) };
    } catch (error) {
        const { name, number, value, settings, message } = error;
        return error instanceof Refusal ? { refusal: { name, number, value, settings }, message } : { message };
    }
}

// The memory of an answer's numbers goes over, and is not copied.
const memoryOf = ({ answer }) => (answer?.laid ?? []).flatMap((view) => Object.values(view).flatMap((part) => part?.buffer ?? []));

export function listen(scope) {
    scope.onmessage = async ({ data }) => {
        loading ??= load(data.wasm);
        let told;
        try {
            library = await loading;
            told = data.call === undefined ? {} : answered(data);
        } catch (error) {
            told = { message: `the library could not be started: ${error.message}` };
        }
        scope.postMessage({ id: data.id, ...told }, memoryOf(told));
    };
}
