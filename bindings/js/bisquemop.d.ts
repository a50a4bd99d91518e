// The types of bisquemop.mjs. Offsets are in bytes from the text's start, widths and heights in pixels, counts in characters.
// include/bisquemop.h has what each call does and what it refuses.

/** A text as a string or as UTF-8. */
export type Text = string | Uint8Array | ArrayBuffer;

/** How a text is laid. What is left out is as in `defaults`, and so is what an object has from its prototype alone. */
export interface Settings {
    /** The width of every character. */
    glyph: number;
    /** The width of the box. */
    width: number;
    /** Tab stops stand at its multiples. */
    tab: number;
    /** How far below a line the next one stands. */
    spacing: number;
    /** How much further, after a line that ends by a new line. */
    paragraph: number;
    /** The height of a single line. */
    base: number;
    /** The height of the box. */
    height: number;
    /** The y of the box's upper side. */
    top: number;
    /** One of `Alignment`. */
    alignment: number;
    /** One of `Vertical`. */
    vertical: number;
    /** Spaces at the start of a line: 0 off, 1 on. */
    leading: number;
    /** Retired: 0. */
    trailing: number;
    /** One of `Wrap`: what becomes of a word of which no character fits. */
    wrap: number;
}

/** A line's eleven numbers. */
export interface Line {
    start: number;
    restEnd: number;
    restCount: number;
    /** One of `End`. */
    end: number;
    left: number;
    space: number;
    extra: number;
    width: number;
    dropped: number;
    reach: number;
    chars: number;
}

/** A table: its lines, or the library's own row of eleven numbers for each. */
export type Lines = readonly Line[] | Uint32Array;

export interface Event {
    /** One of `Drawn`. */
    kind: number;
    start: number;
    end: number;
    count: number;
    width: number;
    x: number;
}

export interface Token {
    /** One of `Kind`. */
    kind: number;
    start: number;
    end: number;
    count: number;
}

export interface Page {
    line: number;
    start: number;
    end: number;
}

/** Where a line starts, and with what rest of a cut run of spaces. */
export interface Place {
    start: number;
    restEnd?: number;
    restCount?: number;
}

/** The old bytes from a up to b are replaced by so many others. */
export interface Edit {
    a: number;
    b: number;
    inserted: number;
}

/** A word that no line draws: where it stands in the text, and in which line it was dropped. */
export interface Lost {
    line: number;
    count: number;
    start: number;
    end: number;
    text: string;
}

/** What an edit did: lines before `first` are untouched, `laid` lines from there were laid, and `moved` lines after these moved. */
export interface Edited {
    first: number;
    laid: number;
    moved: number;
    lines: number;
}

/** Why a call refused. `name` is one of the names of `Refused`, and `message` says it in words. */
export class Refusal extends Error {
    constructor(number: number, value: number, about?: object);
    readonly number: number;
    readonly value: number;
    /** The setting that is out of range or unknown, where that can be told; `h` for a number of lines. */
    readonly setting?: string;
    /** With RETIRED_SETTING the file's settings, with a 0 for `trailing`. */
    readonly settings?: Settings;
}

export const Alignment: Readonly<{ LEFT: 0; CENTRE: 1; RIGHT: 2; JUSTIFIED: 3 }>;
export const Vertical: Readonly<{ TOP: 0; MIDDLE: 1; BOTTOM: 2 }>;
export const Wrap: Readonly<{ DROP: 0; WAIT: 1 }>;
export const End: Readonly<{ NEW_LINE: 0; CARRIAGE_RETURN: 1; END_OF_TEXT: 2; LINE_BREAK: 3 }>;
export const Kind: Readonly<{ NEW_LINE: 0; CARRIAGE_RETURN: 1; TAB: 2; WHITESPACE: 3; WORD: 4; BREAK: 5 }>;
export const Drawn: Readonly<{ SPACE: 0; PRINTED: 1; MOVE: 2 }>;
export const Which: Readonly<{ LONG_TEXT: 0; SHORT_TEXT: 1 }>;
export const Refused: Readonly<{
    SETTING_OUT_OF_RANGE: 1;
    UNKNOWN_ALIGNMENT: 2;
    TEXT_TOO_LONG: 3;
    NOT_UTF8: 4;
    BAD_LINE: 5;
    BAD_EDIT: 6;
    TOO_SMALL: 8;
    BAD_FIELD: 9;
    BAD_INDEX: 10;
    OLD_ENTRY: 11;
    RETIRED_SETTING: 12;
}>;

/** The least and the most that each setting may be. The library checks them. */
export const limits: Readonly<Record<keyof Settings, readonly [number, number]>>;
export const defaults: Readonly<Settings>;
export const TEXT_MAX: 65535;

/** A text with its table and its index. An edit lays again what it affects. */
export interface Layout {
    readonly settings: Settings;
    readonly text: string;
    readonly bytes: Uint8Array;
    readonly table: Uint32Array;
    /** This, `events` and `dropped` are frozen, in all their parts. */
    readonly lines: readonly Readonly<Line>[];
    readonly lineCount: number;
    /** What is drawn, an array for each line. */
    readonly events: readonly (readonly Readonly<Event>[])[];
    readonly dropped: readonly Readonly<Lost>[];
    readonly height: number;
    readonly index: Int32Array;
    /** Whether each line shows: it is wholly in the box. */
    readonly showing: boolean[];
    /** All that stands in the text from a line's start up to the next. */
    lineText(line: number): string;
    lineY(line: number): { y: number; shows: boolean } | null;
    findLine(y: number): number | null;
    pages(h: number): Page[];
    /** The bytes of a layout file. */
    file(): Uint8Array;
    /** Replaces the bytes from a up to b. A refusal leaves all as it was. */
    edit(a: number, b: number, text: Text): Edited;
    /** Makes the text another one, by the smallest edit that does. */
    change(text: Text): Edited;
}

/** The library: one instance of its module. Each call throws a Refusal where the library refuses. */
export interface Bisquemop {
    /** Answers all thirteen. */
    checkSettings(settings?: Partial<Settings>): Settings;
    /** Answers the length in bytes. */
    checkText(text: Text): number;
    tokens(text: Text): Token[];
    layout(text: Text, settings?: Partial<Settings>): Line[];
    layoutTable(text: Text, settings?: Partial<Settings>): Uint32Array;
    layoutEvents(text: Text, settings?: Partial<Settings>): { lines: Line[]; events: Event[] };
    layoutEventNumbers(text: Text, settings?: Partial<Settings>): { table: Uint32Array; events: Uint32Array };
    open(text: Text, settings?: Partial<Settings>): number;
    oneLine(text: Text, from?: Place, settings?: Partial<Settings>): { line: Line; next: Required<Place> | null };
    lineByLine(text: Text, settings?: Partial<Settings>): IterableIterator<Line>;
    firstAffected(lines: Lines, edit: Edit): number;
    layAgain(part: Text, lines: Lines, edit: Edit, settings?: Partial<Settings>): { lines: Line[]; laid: number };
    layTableAgain(part: Text, table: Uint32Array, edit: Edit, settings?: Partial<Settings>): { table: Uint32Array; laid: number };
    height(lines: Lines, settings?: Partial<Settings>): number;
    lineY(lines: Lines, line: number, settings?: Partial<Settings>): { y: number; shows: boolean } | null;
    index(lines: Lines, settings?: Partial<Settings>): Int32Array;
    indexAgain(lines: Lines, first: number, index: Int32Array | readonly number[], settings?: Partial<Settings>): Int32Array;
    findLine(lines: Lines, index: Int32Array | readonly number[], y: number): number | null;
    writeFile(lines: Lines, settings?: Partial<Settings>): Uint8Array;
    readFile(bytes: Uint8Array | ArrayBuffer): { settings: Settings; textLength: number; lines: Line[] };
    choose(long: Text, short: Text, h: number, settings?: Partial<Settings>): { which: number; length: number; text: string; leftOut: number };
    pages(text: Text, h: number, settings?: Partial<Settings>): { lines: Line[]; pages: Page[] };
    pagesAgain(lines: Lines, h: number, first: number, pages: readonly Page[] | Uint32Array): Page[];
    columnsFit(text: Text, h: number, settings?: Partial<Settings>): boolean;
    /** The smallest width, or null if there is none. */
    columnsPlan(text: Text, h: number, settings?: Partial<Settings>): number | null;
    lay(text: Text, settings?: Partial<Settings>): Layout;
}

/** Loads the library: from a URL, from bytes or from a Response; where nothing is said, from bisquemop.wasm beside the module. */
export function load(source?: string | URL | Response | ArrayBuffer | Uint8Array): Promise<Bisquemop>;
