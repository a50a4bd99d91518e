// Bisquemop for JavaScript: every call of include/bisquemop.h, over the library as a WebAssembly module. Texts are strings or bytes,
// answers plain objects, and refusals errors of the class Refusal. Offsets are in bytes, as in C. A Layout keeps a text with its
// table and index, and lays again what an edit affects. bisquemop.d.ts has the types, README.md an example.
//
// A call first reads all that it is given, each thing once and by its own properties, which may run code of the caller's; only then it
// lends, and until its answer is taken no such code runs.

// ---- the header's numbers

export const Alignment = Object.freeze({ LEFT: 0, CENTRE: 1, RIGHT: 2, JUSTIFIED: 3 });
export const Vertical = Object.freeze({ TOP: 0, MIDDLE: 1, BOTTOM: 2 });
export const Wrap = Object.freeze({ DROP: 0, WAIT: 1 });
export const End = Object.freeze({ NEW_LINE: 0, CARRIAGE_RETURN: 1, END_OF_TEXT: 2, LINE_BREAK: 3 });
export const Kind = Object.freeze({ NEW_LINE: 0, CARRIAGE_RETURN: 1, TAB: 2, WHITESPACE: 3, WORD: 4, BREAK: 5 });
export const Drawn = Object.freeze({ SPACE: 0, PRINTED: 1, MOVE: 2 });
export const Which = Object.freeze({ LONG_TEXT: 0, SHORT_TEXT: 1 });
export const Refused = Object.freeze({
    SETTING_OUT_OF_RANGE: 1,
    UNKNOWN_ALIGNMENT: 2,
    TEXT_TOO_LONG: 3,
    NOT_UTF8: 4,
    BAD_LINE: 5,
    BAD_EDIT: 6,
    TOO_SMALL: 8,
    BAD_FIELD: 9,
    BAD_INDEX: 10,
    OLD_ENTRY: 11,
    RETIRED_SETTING: 12,
});

// The settings in the header's order, each with its limits and what it is where none is given. The limits are for words and fields
// alone: it is the library that checks.
export const limits = Object.freeze({
    glyph: Object.freeze([1, 64]),
    width: Object.freeze([0, 4096]),
    tab: Object.freeze([0, 4096]),
    spacing: Object.freeze([0, 4096]),
    paragraph: Object.freeze([0, 4096]),
    base: Object.freeze([1, 64]),
    height: Object.freeze([0, 4096]),
    top: Object.freeze([-4096, 4096]),
    alignment: Object.freeze([0, 3]),
    vertical: Object.freeze([0, 2]),
    leading: Object.freeze([0, 1]),
    trailing: Object.freeze([0, 0]),
    wrap: Object.freeze([0, 1]),
});
export const defaults = Object.freeze({
    glyph: 6,
    width: 72,
    tab: 24,
    spacing: 8,
    paragraph: 0,
    base: 8,
    height: 48,
    top: 0,
    alignment: Alignment.LEFT,
    vertical: Vertical.TOP,
    leading: 1,
    trailing: 0,
    wrap: Wrap.WAIT,
});
export const TEXT_MAX = 65535;

const LINES_MAX = TEXT_MAX + 1;
const SETTINGS = Object.keys(limits);

// A kind of record: what its numbers are called, in their order, and one of the row n from a place on. It is written out, so that no
// part of it can be set on a prototype, and all have one shape.
function kindOfRecord(at) {
    const columns = Object.keys(at([], 0));
    return { at, columns, length: columns.length };
}
const LINE = kindOfRecord((n, k) => ({
    start: n[k],
    restEnd: n[k + 1],
    restCount: n[k + 2],
    end: n[k + 3],
    left: n[k + 4],
    space: n[k + 5],
    extra: n[k + 6],
    width: n[k + 7],
    dropped: n[k + 8],
    reach: n[k + 9],
    chars: n[k + 10],
}));
const EVENT = kindOfRecord((n, k) => ({ kind: n[k], start: n[k + 1], end: n[k + 2], count: n[k + 3], width: n[k + 4], x: n[k + 5] }));
const TOKEN = kindOfRecord((n, k) => ({ kind: n[k], start: n[k + 1], end: n[k + 2], count: n[k + 3] }));
const PAGE = kindOfRecord((n, k) => ({ line: n[k], start: n[k + 1], end: n[k + 2] }));

const CALLS = [
    'check_settings', 'check_text', 'tokens', 'layout', 'layout_events', 'open', 'one_line', 'first_affected', 'lay_again',
    'height', 'line_y', 'index', 'index_again', 'find_line', 'write_file', 'read_file', 'choose', 'pages', 'pages_again',
    'columns_fit', 'columns_plan',
];

const NONE = 0xffffffffffffffffn;
const NO_LINE = 2;

// ---- refusals

const REFUSAL_NAMES = new Map(Object.entries(Refused).map(([name, number]) => [number, name]));
const ALIGNMENT_WORDS = {
    alignment: '0 (left), 1 (centre), 2 (right) or 3 (justified)',
    vertical: '0 (top), 1 (middle) or 2 (bottom)',
};

const grouped = (number) => String(number).replace(/\B(?=(\d{3})+$)/g, ',');

function rangeWords({ setting, given }) {
    if (setting === undefined) {
        return 'a setting is out of its range';
    }
    if (setting === 'h') {
        return 'the number of lines is 0, and has to be 1 at least';
    }
    const [least, most] = limits[setting];
    if (setting === 'trailing') {
        return `trailing is ${given}, and has to be 0: the setting is retired`;
    }
    return `${setting} is ${given}, and may be ${grouped(least)} to ${grouped(most)}`;
}

// What a refusal says in words. `about` is what the call knows besides number and value.
const SENTENCES = {
    1: (value, about) => rangeWords(about),
    2: (value, { setting }) =>
        setting === undefined
            ? `an alignment is ${value}, which is unknown`
            : `${setting} is ${value}, and may be ${ALIGNMENT_WORDS[setting]}`,
    3: (value) => `the text has ${grouped(value)} bytes, and may have ${grouped(TEXT_MAX)} at most`,
    4: (value) => `the text is not UTF-8: it goes wrong after its first ${grouped(value)} bytes`,
    5: (value, { oneLine }) =>
        oneLine ? 'no line of this text starts there, or with such a rest' : `line ${value} of the table is not well formed`,
    6: () => 'the edit does not fit: it ends before it starts, lies past the text, or cuts a character',
    8: (value) => `a buffer is too small: ${grouped(value)} would have to fit`,
    9: (value) => `the layout file has a bad field at byte ${grouped(value)}`,
    10: (value, { lines, ys }) =>
        lines === ys ? `the y of line ${value} is smaller than the one before it` : `the index has ${value} ys for ${lines} lines`,
    11: (value) => `the layout file is an old one: the line at byte ${grouped(value)} has ten numbers, and lines now have eleven`,
    12: () => 'the layout file has trailing spaces on, which is retired: its settings can be used, its lines cannot',
};

// What is known, with nothing from a prototype.
const knowing = (about) => ({ __proto__: null, ...about });

export class Refusal extends Error {
    constructor(number, value, about = {}) {
        const known = knowing(about);
        super(SENTENCES[number]?.(value, known) ?? `refused by number ${number}`);
        this.name = REFUSAL_NAMES.get(number) ?? 'UNKNOWN';
        this.number = number;
        this.value = value;
        if (known.setting !== undefined) {
            this.setting = known.setting;
        }
        if (known.settings !== undefined) {
            this.settings = known.settings;
        }
    }
}

// ---- numbers, texts and lists of the caller's

// A thing as a message has it: an object is not asked what it is.
const inWords = (thing) => (Object(thing) === thing ? Object.prototype.toString.call(thing) : String(thing));
const own = (object, name) => (Object.hasOwn(object, name) ? object[name] : undefined);

function whole(name, number, least, most) {
    if (!Number.isInteger(number) || number < least || number > most) {
        throw new RangeError(`${name} is ${inWords(number)}, and has to be a whole number from ${least} to ${most}`);
    }
    return number;
}
const unsigned = (name, number) => whole(name, number, 0, 0xffffffff);
const signed = (name, number) => whole(name, number, -0x80000000, 0x7fffffff);
const count = (name, number) => BigInt(whole(name, number, 0, Number.MAX_SAFE_INTEGER));

// The settings that are given and, for the others, the defaults.
function settingsOf(given) {
    if (!['[object Object]', '[object Module]'].includes(Object.prototype.toString.call(given))) {
        throw new TypeError(`settings are ${inWords(given)}, and have to be an object that names them`);
    }
    for (const name of Object.keys(given)) {
        if (!SETTINGS.includes(name)) {
            throw new TypeError(`there is no setting ${name}`);
        }
    }
    const settings = { ...defaults };
    for (const name of SETTINGS) {
        const number = own(given, name) ?? defaults[name];
        if (!Number.isInteger(number)) {
            throw new TypeError(`${name} is ${inWords(number)}, and has to be a whole number`);
        }
        settings[name] = number;
    }
    return settings;
}

// Thirteen numbers. One that has no 32 bits would come to the library as another: it gets one that is out of range too.
const settingNumbers = (settings) => SETTINGS.map((name) => (name === 'top' ? withinSigned : withinUnsigned)(settings[name]));
const withinSigned = (number) => Math.max(-0x80000000, Math.min(number, 0x7fffffff));
const withinUnsigned = (number) => (number < 0 || number > 0xffffffff ? 0xffffffff : number);
const settingsFrom = (numbers) => Object.fromEntries(SETTINGS.map((name, k) => [name, name === 'top' ? numbers[k] | 0 : numbers[k]]));

// The same numbers as a plain array over the same memory: a Buffer of node's is bytes too, and its slice is no copy.
const ofNumbers = (part) => Object.getOwnPropertyDescriptor(Object.getPrototypeOf(Uint8Array.prototype), part).get;
const [bufferOf, offsetOf, lengthOf] = ['buffer', 'byteOffset', 'length'].map(ofNumbers);
const plain = (Numbers, given) => new Numbers(bufferOf.call(given), offsetOf.call(given), lengthOf.call(given));

const isHigh = (unit) => (unit & 0xfc00) === 0xd800;
const isLow = (unit) => (unit & 0xfc00) === 0xdc00;

// How many bytes a string has, and whether all pairs in it are whole. Half of a pair counts as three.
function measured(string) {
    let [length, isWhole] = [0, true];
    for (let k = 0; k < string.length; k++) {
        const unit = string.charCodeAt(k);
        if (isHigh(unit) && isLow(string.charCodeAt(k + 1))) {
            length += 4;
            k++;
        } else {
            length += unit < 0x80 ? 1 : unit < 0x800 ? 2 : 3;
            isWhole &&= (unit & 0xf800) !== 0xd800;
        }
    }
    return { length, isWhole };
}

// A string's bytes. TextEncoder would put another character for half of a pair: here it becomes bytes that are no UTF-8, so that the
// library refuses them.
const encoder = new TextEncoder();
function halvesAsBytes(string, length) {
    const bytes = new Uint8Array(length);
    let at = 0;
    for (const character of string) {
        const unit = character.charCodeAt(0);
        if (character.length === 1 && (unit & 0xf800) === 0xd800) {
            bytes.set([0xed, 0x80 | ((unit >> 6) & 0x3f), 0x80 | (unit & 0x3f)], at);
            at += 3;
        } else {
            at += encoder.encodeInto(character, bytes.subarray(at)).written;
        }
    }
    return bytes;
}

function joined(parts) {
    const all = new Uint8Array(parts.reduce((length, part) => length + part.length, 0));
    let at = 0;
    for (const part of parts) {
        all.set(part, at);
        at += part.length;
    }
    return all;
}

// A text as it is lent: its length, and its bytes. Of one that is too long the library looks at its length alone: it has no bytes here,
// and none are copied.
class Lendable {
    bytes;
    length;
    #isOwn;

    constructor(bytes, length, isOwn) {
        this.bytes = bytes;
        this.length = length;
        this.#isOwn = isOwn;
    }

    // The same, and nobody else has its bytes.
    kept() {
        return this.#isOwn ? this : new Lendable(this.bytes.slice(), this.length, true);
    }
}
const NO_BYTES = new Uint8Array();

function stringText(string) {
    const { length, isWhole } = measured(string);
    const bytes = length > TEXT_MAX ? NO_BYTES : isWhole ? encoder.encode(string) : halvesAsBytes(string, length);
    return new Lendable(bytes, length, true);
}

function bytesOf(given) {
    if (given instanceof Uint8Array) {
        return plain(Uint8Array, given);
    }
    if (given instanceof ArrayBuffer) {
        return new Uint8Array(given);
    }
    return null;
}

function textOf(text) {
    if (text instanceof Lendable) {
        return text;
    }
    if (typeof text === 'string') {
        return stringText(text);
    }
    const bytes = bytesOf(text);
    if (bytes === null) {
        throw new TypeError('a text is a string or bytes');
    }
    return new Lendable(bytes.length > TEXT_MAX ? NO_BYTES : bytes, bytes.length, false);
}
const decoder = new TextDecoder('utf-8', { ignoreBOM: true });
const stringOf = (bytes) => decoder.decode(bytes);

// Records of named numbers, as the library's row of numbers and back.
function numbersOf(what, { columns, length }, records) {
    if (records instanceof Uint32Array) {
        return plain(Uint32Array, records);
    }
    if (!Array.isArray(records)) {
        throw new TypeError(`${what}s are ${inWords(records)}, and have to be an array or a Uint32Array`);
    }
    const numbers = new Uint32Array(length * records.length);
    for (let k = 0; k < numbers.length / length; k++) {
        const record = records[k];
        columns.forEach((column, c) => {
            numbers[length * k + c] = unsigned(`${what} ${k}'s ${column}`, own(record, column));
        });
    }
    return numbers;
}

function recordsOf({ at, length }, numbers) {
    const records = [];
    for (let k = 0; k < numbers.length; k += length) {
        records.push(at(numbers, k));
    }
    return records;
}

function frozen(records) {
    records.forEach(Object.freeze);
    return Object.freeze(records);
}

// No table of more lines than a text can have is well formed, and its first bad line is one of the first or the last: of the lines
// between these none is lent.
const TABLE_MOST = LINE.length * (LINES_MAX + 3);
function tableOf(lines) {
    const table = numbersOf('line', LINE, lines);
    if (table.length <= TABLE_MOST) {
        return table;
    }
    const last = table.length - LINE.length - (table.length % LINE.length);
    return joinedNumbers(table.subarray(0, TABLE_MOST - LINE.length), table.subarray(last));
}
function joinedNumbers(first, second) {
    const all = new Uint32Array(first.length + second.length);
    all.set(first);
    all.set(second, first.length);
    return all;
}
const lineCount = (table) => Math.ceil(table.length / LINE.length);

const indexOf = (ys) => (ys instanceof Int32Array ? plain(Int32Array, ys) : Int32Array.from(ys, (y, k) => signed(`y ${k}`, y)));
const editOf = (edit) => ['a', 'b', 'inserted'].map((name) => unsigned(name, own(edit, name)));
const placeOf = (from) => ['start', 'restEnd', 'restCount'].map((name, k) => unsigned(name, own(from, name) ?? (k === 0 ? undefined : 0)));

// ---- layout files

const HEAD = 62;
const FIELD = 3 + 4 * LINE.length;
const FILE_HEAD_LINES = HEAD + FIELD * (LINES_MAX + 2);
const isLineField = (bytes, at) => at + FIELD <= bytes.length && bytes[at] === 3 && bytes[at + 1] === 4 * LINE.length && bytes[at + 2] === 0;

// A layout file as it is lent. One of more lines than a text can have is refused, by what its first lines are or what comes after the
// last: of the fields between these, and of what comes far behind, nothing is lent. `offset` is where in the file an offset of what is
// lent stands.
function fileOf(bytes) {
    if (bytes.length <= FILE_HEAD_LINES) {
        return { bytes, offset: (at) => at };
    }
    let end = HEAD;
    while (isLineField(bytes, end)) {
        end += FIELD;
    }
    const head = Math.min(end, FILE_HEAD_LINES);
    const tail = Math.max(head, end - FIELD);
    const lent = joined([bytes.subarray(0, head), bytes.subarray(tail, end + 2 * FIELD)]);
    return { bytes: lent, offset: (at) => (at < head ? at : at + tail - head) };
}

// ---- the module's memory

// What a call is lent stands behind the module's own data, one after the other, and is forgotten at the next call. The memory grows
// where it has to. Views are made when they are used and never kept: growing makes old ones empty.
class Lent {
    #memory;
    #base;
    #free;

    constructor(memory, base) {
        this.#memory = memory;
        this.#base = base;
        this.#free = base;
    }

    forget() {
        this.#free = this.#base;
    }

    reserve(bytes) {
        const at = 8 * Math.ceil(this.#free / 8);
        const end = at + bytes;
        const lacking = end - this.#memory.buffer.byteLength;
        if (lacking > 0) {
            this.#memory.grow(Math.ceil(lacking / 65536));
        }
        this.#free = end;
        return at;
    }

    // A copy of the caller's numbers, in room for so many or more, with zeros behind it.
    put(Numbers, numbers, room = numbers.length) {
        const length = Math.max(room, numbers.length);
        const at = this.reserve(Numbers.BYTES_PER_ELEMENT * length);
        const view = new Numbers(this.#memory.buffer, at, length);
        view.set(numbers);
        view.fill(0, numbers.length);
        return at;
    }

    take(Numbers, at, length) {
        return new Numbers(this.#memory.buffer, at, length).slice();
    }

    number(Numbers, at) {
        return new Numbers(this.#memory.buffer, at, 1)[0];
    }
}

// ---- the calls

class Bisquemop {
    #calls;
    #lent;
    #value = 0;

    constructor(exported) {
        for (const call of CALLS) {
            if (typeof exported[`bisquemop_${call}`] !== 'function') {
                throw new Error(`the module has no call bisquemop_${call}`);
            }
        }
        this.#calls = exported;
        this.#lent = new Lent(exported.memory, exported.__heap_base.value);
    }

    // Before a call's buffers are lent, and after all that is given has been read: the number that every call writes comes first.
    #begin() {
        this.#lent.forget();
        this.#value = this.#lent.reserve(8);
    }

    #ask(call, about, ...words) {
        const number = this.#calls[`bisquemop_${call}`](...words) >>> 0;
        const value = this.#lent.number(BigUint64Array, this.#value);
        if (number !== 0) {
            throw this.#refusal(number, Number(value), about);
        }
        return value === NONE ? null : Number(value);
    }

    #refusal(number, value, about) {
        const { settings, h, offset, handedOut, ...rest } = knowing(about);
        if (number === Refused.SETTING_OUT_OF_RANGE && settings !== undefined) {
            const setting = this.#settingRefused(settings, number) ?? (h === 0 ? 'h' : undefined);
            return new Refusal(number, value, { setting, given: settings[setting] });
        }
        if (number === Refused.SETTING_OUT_OF_RANGE && h === 0) {
            return new Refusal(number, value, { setting: 'h' });
        }
        if (number === Refused.UNKNOWN_ALIGNMENT && settings !== undefined) {
            const setting = this.#settingRefused(settings, number);
            return new Refusal(number, settings[setting] ?? value, { setting });
        }
        if (number === Refused.RETIRED_SETTING) {
            return new Refusal(number, value, { settings: handedOut() });
        }
        const isOffset = number === Refused.BAD_FIELD || number === Refused.OLD_ENTRY;
        return new Refusal(number, isOffset && offset !== undefined ? offset(value) : value, rest);
    }

    // Which setting the library refuses by that number if the others are good. A text's refusal must not change what is lent to it, and
    // so the value stands where it stood.
    #settingRefused(settings, number) {
        return SETTINGS.find((name) => {
            const alone = settingNumbers({ ...defaults, [name]: settings[name] });
            return this.#calls.bisquemop_check_settings(...alone, this.#value) === number;
        });
    }

    // What a call is lent: a text, numbers, or room, each as a pointer and a count.
    #lendText({ bytes, length }) {
        return [this.#lent.put(Uint8Array, bytes), BigInt(length)];
    }
    #lendNumbers(Numbers, numbers, room = 0) {
        return [this.#lent.put(Numbers, numbers, room), BigInt(Math.max(numbers.length, room))];
    }
    #lendTable(table) {
        return [...this.#lendNumbers(Uint32Array, table), BigInt(lineCount(table))];
    }
    #room(numbers) {
        return [this.#lent.reserve(4 * numbers), BigInt(numbers)];
    }
    #roomForLines({ bytes }) {
        return this.#room(LINE.length * (bytes.length + 1));
    }

    checkSettings(settings = {}) {
        const given = settingsOf(settings);
        const numbers = settingNumbers(given);
        this.#begin();
        this.#ask('check_settings', { settings: given }, ...numbers, this.#value);
        return settingsFrom(numbers);
    }

    checkText(text) {
        const given = textOf(text);
        this.#begin();
        this.#ask('check_text', {}, ...this.#lendText(given), this.#value);
        return given.length;
    }

    tokens(text) {
        const given = textOf(text);
        this.#begin();
        const lent = this.#lendText(given);
        const [tokens, room] = this.#room(TOKEN.length * given.bytes.length);
        const found = this.#ask('tokens', {}, ...lent, tokens, room, this.#value);
        return recordsOf(TOKEN, this.#lent.take(Uint32Array, tokens, TOKEN.length * found));
    }

    layout(text, settings = {}) {
        return recordsOf(LINE, this.layoutTable(text, settings));
    }

    // The same as the library's row of numbers, eleven a line.
    layoutTable(text, settings = {}) {
        const [given, set] = [textOf(text), settingsOf(settings)];
        this.#begin();
        const lent = this.#lendText(given);
        const [table, room] = this.#roomForLines(given);
        const lines = this.#ask('layout', { settings: set }, ...settingNumbers(set), ...lent, table, room, this.#value);
        return this.#lent.take(Uint32Array, table, LINE.length * lines);
    }

    layoutEvents(text, settings = {}) {
        const { table, events } = this.layoutEventNumbers(text, settings);
        return { lines: recordsOf(LINE, table), events: recordsOf(EVENT, events) };
    }

    // The same as two rows of numbers, eleven a line and six an event.
    layoutEventNumbers(text, settings = {}) {
        const [given, set] = [textOf(text), settingsOf(settings)];
        this.#begin();
        const drawn = this.#lent.reserve(8);
        const lent = this.#lendText(given);
        const [table, room] = this.#roomForLines(given);
        const events = this.#room(EVENT.length * given.bytes.length);
        const words = [...settingNumbers(set), ...lent, table, room, ...events, this.#value, drawn];
        const lines = this.#ask('layout_events', { settings: set }, ...words);
        const eventCount = Number(this.#lent.number(BigUint64Array, drawn));
        return {
            table: this.#lent.take(Uint32Array, table, LINE.length * lines),
            events: this.#lent.take(Uint32Array, events[0], EVENT.length * eventCount),
        };
    }

    open(text, settings = {}) {
        const [given, set] = [textOf(text), settingsOf(settings)];
        this.#begin();
        return this.#ask('open', { settings: set }, ...settingNumbers(set), ...this.#lendText(given), this.#value);
    }

    oneLine(text, from = { start: 0, restEnd: 0, restCount: 0 }, settings = {}) {
        const [given, places, set] = [textOf(text), placeOf(from), settingsOf(settings)];
        this.#begin();
        const [restEnd, restCount] = [this.#lent.reserve(4), this.#lent.reserve(4)];
        const lent = this.#lendText(given);
        const entry = this.#room(LINE.length);
        const words = [...settingNumbers(set), ...lent, ...places, ...entry, this.#value, restEnd, restCount];
        const start = this.#ask('one_line', { settings: set, oneLine: true }, ...words);
        const next = { start, restEnd: this.#lent.number(Uint32Array, restEnd), restCount: this.#lent.number(Uint32Array, restCount) };
        const [line] = recordsOf(LINE, this.#lent.take(Uint32Array, entry[0], LINE.length));
        return { line, next: line.end === End.END_OF_TEXT ? null : next };
    }

    // The lines of a text, each laid when it is asked for. Settings and text are checked at once.
    lineByLine(text, settings = {}) {
        const kept = textOf(text).kept();
        const given = this.checkSettings(settings);
        return this.#laidOneByOne(kept, given, this.open(kept, given));
    }

    *#laidOneByOne(text, settings, start) {
        let next = { start, restEnd: 0, restCount: 0 };
        while (next !== null) {
            const laid = this.oneLine(text, next, settings);
            next = laid.next;
            yield laid.line;
        }
    }

    firstAffected(lines, edit) {
        const [table, numbers] = [tableOf(lines), editOf(edit)];
        this.#begin();
        return this.#ask('first_affected', {}, ...this.#lendTable(table), ...numbers, this.#value);
    }

    layAgain(part, lines, edit, settings = {}) {
        const { table, laid } = this.layTableAgain(part, tableOf(lines), edit, settings);
        return { lines: recordsOf(LINE, table), laid };
    }

    layTableAgain(part, table, edit, settings = {}) {
        const [given, old, numbers, set] = [textOf(part), tableOf(table), editOf(edit), settingsOf(settings)];
        this.#begin();
        const laid = this.#lent.reserve(8);
        const lent = this.#lendText(given);
        const [at, room] = this.#lendNumbers(Uint32Array, old, old.length + LINE.length * (given.bytes.length + 1));
        const words = [...settingNumbers(set), ...lent, at, room, BigInt(lineCount(old)), ...numbers, this.#value, laid];
        const lines = this.#ask('lay_again', { settings: set }, ...words);
        return {
            table: this.#lent.take(Uint32Array, at, LINE.length * lines),
            laid: Number(this.#lent.number(BigUint64Array, laid)),
        };
    }

    height(lines, settings = {}) {
        const [table, set] = [tableOf(lines), settingsOf(settings)];
        this.#begin();
        return this.#ask('height', { settings: set }, ...settingNumbers(set), ...this.#lendTable(table), this.#value);
    }

    lineY(lines, line, settings = {}) {
        const [table, which, set] = [tableOf(lines), count('line', line), settingsOf(settings)];
        this.#begin();
        const y = this.#lent.reserve(4);
        const words = [...settingNumbers(set), ...this.#lendTable(table), which, this.#value, y];
        const showing = this.#ask('line_y', { settings: set }, ...words);
        return showing === NO_LINE ? null : { y: this.#lent.number(Int32Array, y), shows: showing === 1 };
    }

    index(lines, settings = {}) {
        const [table, set] = [tableOf(lines), settingsOf(settings)];
        this.#begin();
        const [index, room] = this.#room(lineCount(table));
        const words = [...settingNumbers(set), ...this.#lendTable(table), index, room, this.#value];
        return this.#lent.take(Int32Array, index, this.#ask('index', { settings: set }, ...words));
    }

    indexAgain(lines, first, index, settings = {}) {
        const [table, from, ys, set] = [tableOf(lines), count('first', first), indexOf(index), settingsOf(settings)];
        this.#begin();
        const [at, room] = this.#lendNumbers(Int32Array, ys.subarray(0, lineCount(table)), lineCount(table));
        const words = [...settingNumbers(set), ...this.#lendTable(table), from, at, room, this.#value];
        return this.#lent.take(Int32Array, at, this.#ask('index_again', { settings: set }, ...words));
    }

    // Of an index that has another length than the table has lines the library looks at its length alone.
    findLine(lines, index, y) {
        const [table, ys, at] = [tableOf(lines), indexOf(index), signed('y', y)];
        const about = { lines: lineCount(table), ys: ys.length };
        this.#begin();
        const lent = [this.#lent.put(Int32Array, ys.subarray(0, lineCount(table))), BigInt(ys.length)];
        return this.#ask('find_line', about, ...this.#lendTable(table), ...lent, at, this.#value);
    }

    writeFile(lines, settings = {}) {
        const [table, set] = [tableOf(lines), settingsOf(settings)];
        this.#begin();
        const room = HEAD + 3 + FIELD * lineCount(table);
        const file = this.#lent.reserve(room);
        const words = [...settingNumbers(set), ...this.#lendTable(table), file, BigInt(room), this.#value];
        return this.#lent.take(Uint8Array, file, this.#ask('write_file', { settings: set }, ...words));
    }

    readFile(bytes) {
        const given = bytesOf(bytes);
        if (given === null) {
            throw new TypeError('a layout file is bytes');
        }
        const { bytes: file, offset } = fileOf(given);
        this.#begin();
        const length = this.#lent.reserve(8);
        const lent = this.#lendNumbers(Uint8Array, file);
        const numbers = this.#room(SETTINGS.length);
        const [table, room] = this.#room(LINE.length * (Math.floor(file.length / FIELD) + 1));
        const handedOut = () => settingsFrom(this.#lent.take(Uint32Array, numbers[0], SETTINGS.length));
        const lines = this.#ask('read_file', { handedOut, offset }, ...lent, ...numbers, table, room, this.#value, length);
        return {
            settings: handedOut(),
            textLength: Number(this.#lent.number(BigUint64Array, length)),
            lines: recordsOf(LINE, this.#lent.take(Uint32Array, table, LINE.length * lines)),
        };
    }

    choose(long, short, h, settings = {}) {
        const [texts, most, set] = [[textOf(long), textOf(short)], unsigned('h', h), settingsOf(settings)];
        this.#begin();
        const [which, left] = [this.#lent.reserve(4), this.#lent.reserve(8)];
        const lent = texts.map((text) => this.#lendText(text));
        const words = [...settingNumbers(set), ...lent.flat(), most, this.#value, which, left];
        const length = this.#ask('choose', { settings: set, h: most }, ...words);
        const chosen = this.#lent.number(Uint32Array, which);
        const leftOut = Number(this.#lent.number(BigUint64Array, left));
        const [at] = lent[chosen === Which.LONG_TEXT ? 0 : 1];
        return { which: chosen, length, text: stringOf(this.#lent.take(Uint8Array, at, length)), leftOut };
    }

    pages(text, h, settings = {}) {
        const [given, most, set] = [textOf(text), unsigned('h', h), settingsOf(settings)];
        this.#begin();
        const listed = this.#lent.reserve(8);
        const lent = this.#lendText(given);
        const [table, room] = this.#roomForLines(given);
        const pages = this.#room(PAGE.length * (given.bytes.length + 1));
        const words = [...settingNumbers(set), ...lent, most, table, room, ...pages, this.#value, listed];
        const lines = this.#ask('pages', { settings: set, h: most }, ...words);
        const pageCount = Number(this.#lent.number(BigUint64Array, listed));
        return {
            lines: recordsOf(LINE, this.#lent.take(Uint32Array, table, LINE.length * lines)),
            pages: recordsOf(PAGE, this.#lent.take(Uint32Array, pages[0], PAGE.length * pageCount)),
        };
    }

    pagesAgain(lines, h, first, pages) {
        const [table, most, from] = [tableOf(lines), unsigned('h', h), count('first', first)];
        const listedFirst = numbersOf('page', PAGE, pages).subarray(0, PAGE.length * lineCount(table));
        this.#begin();
        const [at, room] = this.#lendNumbers(Uint32Array, listedFirst, PAGE.length * lineCount(table));
        const words = [...this.#lendTable(table), most, from, at, room, this.#value];
        const listed = this.#ask('pages_again', { h: most }, ...words);
        return recordsOf(PAGE, this.#lent.take(Uint32Array, at, PAGE.length * listed));
    }

    columnsFit(text, h, settings = {}) {
        return this.#askColumns('columns_fit', text, h, settings) === 1;
    }

    columnsPlan(text, h, settings = {}) {
        return this.#askColumns('columns_plan', text, h, settings);
    }

    #askColumns(call, text, h, settings) {
        const [given, most, set] = [textOf(text), unsigned('h', h), settingsOf(settings)];
        this.#begin();
        return this.#ask(call, { settings: set, h: most }, ...settingNumbers(set), ...this.#lendText(given), most, this.#value);
    }

    // A text with its layout.
    lay(text, settings = {}) {
        const kept = textOf(text).kept();
        return new Layout(this, kept, this.checkSettings(settings));
    }
}

// ---- a text with its layout

const continues = (byte) => (byte & 0xc0) === 0x80;

// The smallest edit between whole characters that makes one text of another.
function editBetween(before, after) {
    const shorter = Math.min(before.length, after.length);
    let a = 0;
    while (a < shorter && before[a] === after[a]) {
        a++;
    }
    while (a > 0 && (continues(before[a]) || continues(after[a]))) {
        a--;
    }
    let kept = 0;
    while (kept < shorter - a && before[before.length - 1 - kept] === after[after.length - 1 - kept]) {
        kept++;
    }
    while (kept > 0 && continues(after[after.length - kept])) {
        kept--;
    }
    return { a, b: before.length - kept, inserted: after.subarray(a, after.length - kept) };
}

// What was dropped in a line: its last characters.
function lostIn(bytes, line, end, dropped) {
    let start = end;
    for (let left = dropped; left > 0; left--) {
        do {
            start--;
        } while (continues(bytes[start]));
    }
    return { line, count: dropped, start, end, text: stringOf(bytes.subarray(start, end)) };
}

class Layout {
    #library;
    #settings;
    #bytes;
    #table;
    #index;
    #lines;
    #events;
    #dropped;

    constructor(library, text, settings) {
        this.#library = library;
        this.#settings = settings;
        this.#table = library.layoutTable(text, settings);
        this.#bytes = text.bytes;
        this.#index = library.index(this.#table, settings);
    }

    get settings() {
        return { ...this.#settings };
    }
    get text() {
        return stringOf(this.#bytes);
    }
    get bytes() {
        return this.#bytes.slice();
    }
    get table() {
        return this.#table.slice();
    }
    get lineCount() {
        return lineCount(this.#table);
    }
    get index() {
        return this.#index.slice();
    }
    get height() {
        return this.#library.height(this.#table, this.#settings);
    }

    // Whether each line shows, as lineY says it of one: it is wholly in the box.
    get showing() {
        const { top, height, base } = this.#settings;
        return Array.from(this.#index, (y) => y >= top && y <= top + height - base);
    }
    get lines() {
        this.#lines ??= frozen(recordsOf(LINE, this.#table));
        return this.#lines;
    }

    // What is drawn, an array for each line. A print of no text stands at the end of its word, which belongs to the line before that
    // place.
    get events() {
        this.#events ??= frozen(this.#eventsOfLines().map(frozen));
        return this.#events;
    }

    #eventsOfLines() {
        const { lines } = this;
        const events = lines.map(() => []);
        let line = 0;
        for (const event of recordsOf(EVENT, this.#library.layoutEventNumbers(this.#bytes, this.#settings).events)) {
            const last = event.end > event.start ? event.start : event.start - 1;
            while (line + 1 < lines.length && lines[line + 1].start <= last) {
                line++;
            }
            events[line].push(event);
        }
        return events;
    }

    // The words that no line draws.
    get dropped() {
        const { lines } = this;
        this.#dropped ??= frozen(
            lines.flatMap((line, k) =>
                line.dropped > 0 ? [lostIn(this.#bytes, k, lines[k + 1]?.start ?? this.#bytes.length, line.dropped)] : [],
            ),
        );
        return this.#dropped;
    }

    lineText(line) {
        const { lines } = this;
        if (!Number.isInteger(line) || line < 0 || line >= lines.length) {
            throw new RangeError(`there is no line ${inWords(line)}`);
        }
        return stringOf(this.#bytes.subarray(lines[line].start, lines[line + 1]?.start ?? this.#bytes.length));
    }
    lineY(line) {
        return this.#library.lineY(this.#table, line, this.#settings);
    }
    findLine(y) {
        return this.#library.findLine(this.#table, this.#index, y);
    }
    pages(h) {
        return this.#library.pagesAgain(this.#table, h, 0, []);
    }
    file() {
        return this.#library.writeFile(this.#table, this.#settings);
    }

    // Replaces the bytes from a up to b, and lays again what that affects. A refusal leaves all as it was. What is too long, and has no
    // bytes here, is refused at the first call.
    edit(a, b, text) {
        const inserted = textOf(text);
        const edit = { a, b, inserted: inserted.length };
        const first = this.#library.firstAffected(this.#table, edit);
        const bytes = joined([this.#bytes.subarray(0, a), inserted.bytes, this.#bytes.subarray(b)]);
        const { table, laid } = this.#laidAgain(bytes, this.#table[LINE.length * first], edit);
        this.#index = this.#library.indexAgain(table, first, this.#index, this.#settings);
        this.#bytes = bytes;
        this.#table = table;
        this.#lines = undefined;
        this.#events = undefined;
        this.#dropped = undefined;
        return { first, laid, moved: this.lineCount - first - laid, lines: this.lineCount };
    }

    // What is not UTF-8 is told by its place in the whole text, of which the library has seen a part.
    #laidAgain(bytes, start, edit) {
        try {
            return this.#library.layTableAgain(bytes.subarray(start), this.#table, edit, this.#settings);
        } catch (error) {
            throw error.number === Refused.NOT_UTF8 ? new Refusal(error.number, start + error.value) : error;
        }
    }

    // Makes the text another one, by the smallest edit that does.
    change(text) {
        const after = textOf(text);
        if (after.length > TEXT_MAX) {
            return this.edit(0, this.#bytes.length, after);
        }
        const { a, b, inserted } = editBetween(this.#bytes, after.bytes);
        return this.edit(a, b, inserted);
    }
}

// ---- loading

async function fetched(url) {
    if (url.protocol === 'file:' && typeof process === 'object') {
        const { readFile } = await import('node:fs/promises');
        return readFile(url);
    }
    return responseBytes(await fetch(url));
}

async function responseBytes(response) {
    if (!response.ok) {
        throw new Error(`the library could not be loaded: ${response.status} ${response.statusText}`);
    }
    return response.arrayBuffer();
}

function moduleBytes(source) {
    if (typeof source === 'string' || source instanceof URL) {
        return fetched(new URL(source, globalThis.document?.baseURI ?? import.meta.url));
    }
    return typeof Response === 'function' && source instanceof Response ? responseBytes(source) : source;
}

// Loads the library, from a URL, from bytes or from a Response; where nothing is said, from the module beside this file.
export async function load(source = new URL('bisquemop.wasm', import.meta.url)) {
    if (typeof WebAssembly !== 'object') {
        throw new Error('there is no WebAssembly here, and the library needs it');
    }
    const { instance } = await WebAssembly.instantiate(await moduleBytes(source), {});
    return new Bisquemop(instance.exports);
}
