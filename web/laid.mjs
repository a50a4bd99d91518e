// A layout as the Worker has answered it: rows of numbers, from which a line or its events are made when they are looked at.

export const LINE = ['start', 'restEnd', 'restCount', 'end', 'left', 'space', 'extra', 'width', 'dropped', 'reach', 'chars'];
const EVENT = ['kind', 'start', 'end', 'count', 'width', 'x'];
const LOST = ['line', 'count', 'start', 'end'];
const PAGE = ['line', 'start', 'end'];

const decoder = new TextDecoder('utf-8', { ignoreBOM: true });

// The records of a row of numbers, of one place up to another.
function recordsOf(columns, numbers, from, to) {
    const record = (k) => Object.fromEntries(columns.map((column, c) => [column, numbers[columns.length * (from + k) + c]]));
    return Array.from({ length: to - from }, (_, k) => record(k));
}

export class Laid {
    #ends;
    #events;
    #lost;
    #pages;

    constructor({ settings, bytes, table, index, shows, ends, events, lost, pages, height, hidden }) {
        Object.assign(this, { settings, bytes, table, index, shows, height, hidden });
        this.#ends = ends;
        this.#events = events;
        this.#lost = lost;
        this.#pages = pages;
    }

    get text() {
        return decoder.decode(this.bytes);
    }
    get lineCount() {
        return this.table.length / LINE.length;
    }
    get pageCount() {
        return this.#pages.length / PAGE.length;
    }
    get lostCount() {
        return this.#lost.length / LOST.length;
    }

    line(k) {
        return recordsOf(LINE, this.table, k, k + 1)[0];
    }
    droppedIn(k) {
        return this.table[LINE.length * k + LINE.indexOf('dropped')];
    }
    textBetween(start, end) {
        return decoder.decode(this.bytes.subarray(start, end));
    }
    lineText(k) {
        const next = LINE.length * (k + 1);
        return this.textBetween(this.table[LINE.length * k], next < this.table.length ? this.table[next] : this.bytes.length);
    }
    eventsOf(k) {
        return recordsOf(EVENT, this.#events, k === 0 ? 0 : this.#ends[k - 1], this.#ends[k]);
    }

    // The first so many of the words that no line draws, and the one of a line.
    lost(most) {
        return recordsOf(LOST, this.#lost, 0, Math.min(most, this.lostCount));
    }
    lostIn(k) {
        let [low, high] = [0, this.lostCount];
        while (low < high) {
            const middle = (low + high) >> 1;
            [low, high] = this.#lost[LOST.length * middle] < k ? [middle + 1, high] : [low, middle];
        }
        const [{ start, end }] = recordsOf(LOST, this.#lost, low, low + 1);
        return this.textBetween(start, end);
    }
    lostCharacters() {
        let characters = 0;
        for (let at = 1; at < this.#lost.length; at += LOST.length) {
            characters += this.#lost[at];
        }
        return characters;
    }

    // How far right these words would end, each of them after what its line draws, and of each so many characters at most.
    lostEnd(most) {
        let end = 0;
        for (let at = 0; at < this.#lost.length; at += LOST.length) {
            end = Math.max(end, this.penAfter(this.#lost[at]) + Math.min(this.#lost[at + 1], most) * this.settings.glyph);
        }
        return end;
    }

    pages(most) {
        return recordsOf(PAGE, this.#pages, 0, Math.min(most, this.pageCount));
    }
    // The lines that begin a page.
    pageStarts() {
        return new Set(this.#pages.filter((number, at) => at % PAGE.length === 0));
    }

    // Where what a line draws ends.
    penAfter(k) {
        const at = EVENT.length * (this.#ends[k] - 1);
        const none = this.#ends[k] === (k === 0 ? 0 : this.#ends[k - 1]);
        return none ? this.table[LINE.length * k + LINE.indexOf('left')] : this.#events[at + 5] + this.#events[at + 4];
    }
}
