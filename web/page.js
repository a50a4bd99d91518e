// The page that shows a clue as the screen will. Each keystroke goes to the library as an edit, and lays again what it affects; the picture
// is drawn from the library's events. The library runs in a Worker (worker.mjs), so that the page answers meanwhile. What is shown is in
// the address, so that a link brings it back.
import { Drawn, End, Refused, TEXT_MAX, defaults, limits } from './bisquemop.mjs';
import { Asked, Refusal, Stopped } from './asking.mjs';
import { LINE, Laid } from './laid.mjs';
import { font } from './font.mjs';
import { wasm } from './wasm.mjs';
import { script } from './working.mjs';

const $ = (id) => document.getElementById(id);

function make(tag, properties = {}, ...children) {
    const { data, ...rest } = properties;
    const element = Object.assign(document.createElement(tag), rest);
    Object.assign(element.dataset, data);
    element.append(...children);
    return element;
}

const grouped = (number) => number.toLocaleString('en-GB');
const counted = (number, one, many) => `${grouped(number)} ${number === 1 ? one : many}`;
const characters = (number) => counted(number, 'character', 'characters');
const withCapital = (words) => words[0].toUpperCase() + words.slice(1);

// ---- what is shown, and the layouts of it

const WELCOME = 'Who lied?\n            not the baker, not his wife.';
const AT_FIRST = { ...defaults, spacing: 10, height: 64 };
const ROWS = 200; // a table of more lines is shown in parts
const LINES_MOST = TEXT_MAX + 1;

const VIEW_AT_FIRST = { h: 6, compare: 0, colour: 0, zoom: 0 };

const state = { settings: AT_FIRST, h: 6, compare: false, colour: false, zoom: 0, rows: ROWS, pointed: null, doubt: '', late: '' };
let layouts = new Map(); // by wrap setting: what is laid by the one that is set, and by the other where both are shown
let edits = new Map(); // by wrap setting: what the last edit did
let fits = false; // whether the clue has room in so many lines

const shown = () => layouts.get(state.settings.wrap);

// The library. A Worker that begins is told what is shown.
const library = new Asked(script, wasm, { first: shownQuestion, told: (open) => busyWith('asked', open) });
function shownQuestion() {
    const { settings, compare, h } = state;
    return layouts.size === 0 ? null : { call: 'show', parts: { text: shown().bytes, settings, compare, h, fresh: true } };
}

// ---- what takes its time

const SLOW = 1000; // milliseconds, after which what is at work is told

// What is at work: questions that are open, and pictures that are being drawn. The document says it, for tests.
const atWork = { asked: 0, drawn: 0 };
function busyWith(what, count) {
    atWork[what] = count;
    document.documentElement.dataset.busy = atWork.asked + atWork.drawn || '';
}

// What takes over a second says so, and can be stopped.
class Slow {
    static #told = new Set();
    #words;
    #stop;
    #late;
    #timer;

    // `late` is told when it has taken a second, and when it is done.
    constructor(words, stop, late = () => {}) {
        this.#words = words;
        this.#stop = stop;
        this.#late = late;
        this.#timer = setTimeout(() => this.#tell(true), SLOW);
    }
    done() {
        clearTimeout(this.#timer);
        if (Slow.#told.has(this)) {
            this.#tell(false);
        }
    }
    #tell(isLate) {
        Slow.#tellAll(this, isLate);
        this.#late(isLate);
    }
    static #tellAll(slow, isLate) {
        Slow.#told[isLate ? 'add' : 'delete'](slow);
        const words = [...Slow.#told].map((one) => one.#words);
        $('working').hidden = words.length === 0;
        $('working').firstElementChild.textContent = [...new Set(words)].join(' ');
    }
    static stopAll() {
        [...Slow.#told].forEach((slow) => slow.#stop());
    }
}

async function slowly(words, answer, late) {
    const slow = new Slow(words, () => library.stop(), late);
    try {
        return await answer;
    } finally {
        slow.done();
    }
}

// ---- what is wanted, and laid in the Worker

// A change of what is shown: its text, settings, compare, h and view, each where it is another one. `fresh` is a text that is no edit.
// While some are laid, others wait; those that wait are laid as one.
let laying = [];
let waiting = [];

const withChange = (before, change) => ({
    ...before,
    ...change,
    settings: { ...before.settings, ...change.settings },
    view: { ...before.view, ...change.view },
});
const withAll = (before, wants) => wants.reduce((now, { change }) => withChange(now, change), before);
const newest = () => withAll(state, [...laying, ...waiting]);

// Wants a change. If it is refused, that is said by the field, and what was there stays; `then` is called with whether it is done.
function want(change, { field = null, before = '', then = () => {} } = {}) {
    forgetRefusals();
    tell('');
    waiting.push({ change, field, before, then });
    if (laying.length === 0) {
        layNext();
    }
}

async function layNext() {
    [laying, waiting] = [waiting, []];
    const change = withAll({ settings: {} }, laying);
    const wanted = withChange(state, change);
    let failed = null;
    try {
        take(await slowly('The clue is being laid.', library.ask('show', questionOf(change, wanted)), sayLate), wanted, change);
    } catch (error) {
        failed = error;
    }
    const done = laying;
    laying = [];
    if (failed === null) {
        done.forEach(({ then }) => then(true));
    } else {
        refuseLast(failed, done);
    }
    if (waiting.length > 0) {
        layNext();
    }
}

// The last of what was wanted is refused, and what came before it may be good: that is wanted once more. What was stopped is over.
function refuseLast(error, wants) {
    const over = error instanceof Stopped ? wants : wants.splice(-1);
    const { field, before } = over.at(-1);
    refuseChange(error, withAll({}, over), before, field);
    over.forEach(({ then }) => then(false));
    waiting = error instanceof Stopped ? waiting : [...wants, ...waiting];
}

// The picture is then of what was wanted before.
function sayLate(isLate) {
    state.late = isLate ? 'This is the clue as it was: what is wanted now is being laid' : '';
    showVerdicts();
}

// A text that was typed is an edit; other settings lay it anew; where neither has changed, the library only lists anew.
const isAnew = ({ fresh, compare, settings }) => fresh || compare !== undefined || Object.keys(settings).length > 0;
function questionOf(change, { settings, compare, h }) {
    const fresh = isAnew(change) || layouts.size === 0;
    return { text: change.text ?? (fresh ? shown().bytes : undefined), settings, compare, h, fresh };
}

function take({ laid, fits: hasRoom }, { settings, h, compare }, change) {
    layouts = new Map(laid.map((one) => [one.wrap, new Laid(one)]));
    fits = hasRoom;
    if (change.text !== undefined || isAnew(change)) {
        edits = new Map(laid.filter((one) => one.edit !== undefined).map((one) => [one.wrap, one.edit]));
        state.pointed = null;
    }
    Object.assign(state, { settings, h, compare }, change.view, change.text === undefined ? {} : { doubt: '' });
    document.querySelector('main').hidden = false;
    $('link').hidden = false;
    render();
}

// A text that was typed and is not laid stays in its box, and the picture is then of another one.
function refuseChange(error, change, before, field) {
    if (change.text !== undefined && !change.fresh) {
        state.doubt = 'This is the clue as it was: what is written now is not laid';
    }
    refuse(before + refusalWords(error), field);
    if (layouts.size > 0) {
        showVerdicts();
        renderControls(true);
    }
}

// ---- words

function refuse(words, field) {
    $('refusal').textContent = words;
    $('refusal').hidden = false;
    field?.setAttribute('aria-invalid', 'true');
}

function tell(words) {
    $('news').textContent = words;
    $('news').hidden = words === '';
}

function forgetRefusals() {
    $('refusal').hidden = true;
    for (const field of document.querySelectorAll('[aria-invalid="true"]')) {
        field.removeAttribute('aria-invalid');
    }
}

function refusalWords(error) {
    if (error instanceof Stopped) {
        return 'It was stopped, and what was there stays.';
    }
    if (!(error instanceof Refusal || error instanceof Unfit)) {
        console.error(error);
    }
    const number = error instanceof Refusal ? ` (Refusal ${error.number}, ${error.name}.)` : '';
    return `${withCapital(error.message)}.${number}`;
}

// What is written where a number is wanted, and is none that the library could be asked about.
class Unfit extends Error {}

function wholeNumber(name, words) {
    if (words.trim() === '' || !Number.isInteger(Number(words))) {
        throw new Unfit(`${name} is “${words}”, and has to be a whole number`);
    }
    return Number(words);
}

// Does something for which a number is wanted. If there is none, that is said, and nothing is done.
function attempt(field, action, before = '') {
    try {
        action();
    } catch (error) {
        if (!(error instanceof Unfit)) {
            throw error;
        }
        forgetRefusals();
        tell('');
        refuse(before + refusalWords(error), field);
        return false;
    }
    return true;
}

// Shows the same in another way.
function view(change) {
    forgetRefusals();
    tell('');
    Object.assign(state, change);
    render();
}

// A text box holds no carriage return: there it is a sign of its own.
const toBox = (text) => text.replaceAll('\r', '⏎');
const fromBox = (text) => text.replaceAll('⏎', '\r');

const SIGNS = { '\n': '↵', '\r': '⏎', '\t': '⇥', '\u00a0': '⍽', '\u2007': '⍽', '\u202f': '⍽', '\u00ad': '¬', '\u200b': '│' };
const signOf = (character) => SIGNS[character];
const dotsFor = (spaces) => '·'.repeat(spaces.length);
const visible = (text) => text.replace(/^ +| +$/g, dotsFor).replace(/[\n\r\t\u00a0\u2007\u202f\u00ad\u200b]/g, signOf);

// ---- the font

const CELL = { width: 6, height: 8 };
const bitmaps = new Map();
for (const [letters, rows] of font) {
    [...letters].forEach((letter, k) => bitmaps.set(letter, rows.map((row) => row.slice(CELL.width * k, CELL.width * (k + 1)))));
}

// A character's picture in a cell of so many dots. One that the font has not is the browser's own, made to fit.
function drawCharacter(pen, character, width, height) {
    const bitmap = bitmaps.get(character);
    if (bitmap === undefined) {
        drawForeign(pen, character, width, height);
        return;
    }
    const edge = (k, cells, size) => Math.round((k * size) / cells);
    bitmap.forEach((row, y) => {
        for (let x = 0; x < CELL.width; x++) {
            if (row[x] === '#') {
                const [left, top] = [edge(x, CELL.width, width), edge(y, CELL.height, height)];
                const [right, bottom] = [edge(x + 1, CELL.width, width), edge(y + 1, CELL.height, height)];
                pen.fillRect(left, top, Math.max(1, right - left), Math.max(1, bottom - top));
            }
        }
    });
}

function drawForeign(pen, character, width, height) {
    pen.font = `${height * 0.95}px ui-monospace, "DejaVu Sans Mono", monospace`;
    pen.textBaseline = 'alphabetic';
    const natural = pen.measureText(character).width;
    pen.save();
    pen.scale(natural > 0 ? Math.min(1.2, width / natural) : 1, 1);
    pen.fillText(character, 0, (height * 7) / CELL.height);
    pen.restore();
}

// The pictures that were drawn, for one size of cell: as many as have so many dots together, or one. The oldest go first.
const GLYPH_DOTS = 4e6;
class Glyphs {
    #size = '';
    #dots = 0; // of one
    #drawn = new Map();

    put(pen, character, colour, x, y, width, height) {
        this.#fit(width, height);
        const key = `${colour} ${character}`;
        const picture = this.#drawn.get(key) ?? this.#draw(key, character, colour, width, height);
        pen.drawImage(picture, x, y);
    }

    #fit(width, height) {
        const size = `${width} ${height}`;
        if (size !== this.#size) {
            [...this.#drawn.keys()].forEach((key) => this.#forget(key));
            this.#size = size;
            this.#dots = Math.max(1, Math.ceil(width)) * Math.max(1, Math.ceil(height));
        }
    }

    // Its memory is given back at once, and not when it is found that nobody has it.
    #forget(key) {
        this.#drawn.get(key).width = 0;
        this.#drawn.delete(key);
    }

    #draw(key, character, colour, width, height) {
        while (this.#drawn.size > 0 && (this.#drawn.size + 1) * this.#dots > GLYPH_DOTS) {
            this.#forget(this.#drawn.keys().next().value);
        }
        const picture = make('canvas', { width: Math.max(1, Math.ceil(width)), height: Math.max(1, Math.ceil(height)) });
        const inner = picture.getContext('2d');
        inner.fillStyle = colour;
        drawCharacter(inner, character, width, height);
        this.#drawn.set(key, picture);
        return picture;
    }
}
const glyphs = new Glyphs(); // both pictures have cells of one size

// ---- the picture

const GUTTER = 44; // for line numbers, left of the box; this and the next three are pixels of the page
const TAIL = 26;
const HEAD = 10;
const FOOT = 36;
const LOST_MOST = 18; // so many lost characters of a line are drawn, at most
const LOST_TOLD = 5; // and so many lines are told

const CANVAS_DOTS = 3e7; // a picture has no more dots, and no more on a side: browsers draw nothing on larger ones
const CANVAS_SIDE = 16000;
const SLICE_TIME = 30; // milliseconds and dots, after which the page is let do something else before it goes on drawing
const SLICE_DOTS = 3e7;

const colours = () => {
    const style = getComputedStyle(document.documentElement);
    return (name) => style.getPropertyValue(`--${name}`).trim();
};

// How far a layout goes beyond its box: by hidden lines above and below, of which some are drawn, and by lost words on the right.
function overhang(layout) {
    const { settings, index } = layout;
    const beyond = 4 * Math.max(settings.base, settings.spacing);
    const above = Math.max(0, Math.min(beyond, settings.top - index[0]));
    const below = Math.max(0, Math.min(beyond, index[index.length - 1] + settings.base - settings.top - settings.height));
    const right = Math.max(0, layout.lostEnd(LOST_MOST) - settings.width);
    return { above, below, right };
}

// What stands where in the pictures that are shown: all have the same room and the same zoom.
function measure(available) {
    const all = [...layouts.values()].map(overhang);
    const [above, below, right] = ['above', 'below', 'right'].map((side) => Math.max(...all.map((one) => one[side])));
    const { width, height } = state.settings;
    const dense = window.devicePixelRatio || 1;
    const fits = Math.min((available - GUTTER - TAIL) / Math.max(1, width + right), (0.7 * window.innerHeight) / Math.max(1, height));
    const zoom = state.zoom || Math.max(1, Math.min(6, Math.floor(fits * dense) / dense));
    return { above, below, right, zoom, dense };
}

function lostItem(layout, { line, count, start, end }) {
    const words = `Line ${line}: ${characters(count)} ${count === 1 ? 'is' : 'are'} not on the screen: `;
    return make('li', { className: 'lost' }, words, make('span', { className: 'word' }, `“${visible(layout.textBetween(start, end))}”`));
}

let dragged = null; // where the drag of an edge began, by what width and zoom

const NO_CANVAS = 'The picture cannot be drawn: this browser has no canvas of its size';
const NOT_WHOLE = 'The picture is not whole: its drawing was stopped';
const COARSE = 'The picture is coarse: it has fewer dots than the screen has pixels';

// Whether what is drawn on a canvas is there, in its last dot, which is looked at on another one.
const probe = make('canvas', { width: 1, height: 1 });
function canDraw(canvas) {
    const [x, y] = [canvas.width - 1, canvas.height - 1];
    try {
        const seen = probe.getContext('2d', { willReadFrequently: true });
        seen.clearRect(0, 0, 1, 1);
        canvas.getContext('2d').fillRect(x, y, 1, 1);
        seen.drawImage(canvas, x, y, 1, 1, 0, 0, 1, 1);
        return seen.getImageData(0, 0, 1, 1).data[3] === 255;
    } catch {
        return false;
    }
}

class Picture {
    #wrap;
    #layout;
    #starts;
    #place;
    #steps = null; // of the drawing, where there are some left
    #next = 0;
    #slow = null;
    #lacks = ''; // what the picture does not have
    figure = make('figure');
    #caption = make('figcaption');
    #verdict = make('div', { className: 'verdict' });
    #frame = make('div', { className: 'frame' });
    #sheet = make('div', { className: 'sheet' });
    #canvas = make('canvas', { tabIndex: 0, className: 'picture' });
    #mark = make('div', { className: 'mark', hidden: true });
    #edge = make('div', { className: 'edge', tabIndex: 0, title: 'Drag to change the box width' });

    constructor(wrap) {
        this.#wrap = wrap;
        this.figure.dataset.wrap = wrap;
        this.#caption.textContent = `wrap ${wrap}: a word that has no room ${wrap === 0 ? 'is dropped' : 'waits for the next line'}`;
        this.#verdict.setAttribute('role', 'status');
        this.#canvas.setAttribute('role', 'img');
        this.#canvas.setAttribute('aria-describedby', 'pointed');
        this.#edge.setAttribute('role', 'slider');
        this.#edge.setAttribute('aria-label', 'Box width');
        this.#edge.setAttribute('aria-orientation', 'horizontal');
        this.#edge.setAttribute('aria-valuemin', limits.width[0]);
        this.#edge.setAttribute('aria-valuemax', limits.width[1]);
        this.#sheet.append(this.#canvas, this.#mark, this.#edge);
        this.#frame.append(this.#sheet);
        this.figure.append(this.#caption, this.#verdict, this.#frame);
        this.#listen();
    }

    #listen() {
        this.#canvas.addEventListener('pointermove', (event) => this.#pointAt(event));
        this.#canvas.addEventListener('pointerdown', (event) => this.#pointAt(event));
        this.#canvas.addEventListener('pointerleave', pointAtNone);
        this.#canvas.addEventListener('contextlost', () => this.#end(NO_CANVAS));
        this.#canvas.addEventListener('contextrestored', () => renderPictures());
        this.#canvas.addEventListener('keydown', (event) => this.#pointByKey(event));
        this.#edge.addEventListener('pointerdown', (event) => this.#take(event));
        this.#edge.addEventListener('pointermove', (event) => this.#pull(event));
        this.#edge.addEventListener('pointerup', () => this.#release());
        this.#edge.addEventListener('pointercancel', () => this.#release());
        this.#edge.addEventListener('keydown', (event) => this.#pullByKey(event));
    }

    // ---- the line under the pointer

    #pointAt(event) {
        const { zoom, above } = this.#place;
        const { top } = this.#layout.settings;
        const y = Math.floor((event.offsetY - HEAD) / zoom) - above + top;
        pointAtY(this.#wrap, y);
    }

    #pointByKey(event) {
        const steps = { ArrowUp: -1, ArrowDown: 1 };
        if (event.key in steps) {
            event.preventDefault();
            const now = state.pointed?.wrap === this.#wrap ? state.pointed.line : -1;
            pointAtLine(this.#wrap, Math.max(0, Math.min(this.#layout.lineCount - 1, now + steps[event.key])));
        } else if (event.key === 'Escape') {
            pointAtLine(null);
        }
    }

    // ---- the right edge

    #take(event) {
        event.preventDefault();
        this.#edge.focus();
        this.#edge.setPointerCapture(event.pointerId);
        dragged = { x: event.clientX, width: newest().settings.width, zoom: this.#place.zoom };
    }
    #pull(event) {
        if (dragged !== null) {
            setWidth(dragged.width + Math.round((event.clientX - dragged.x) / dragged.zoom));
        }
    }
    #release() {
        dragged = null;
        renderPictures();
    }
    #pullByKey(event) {
        const { glyph, width } = newest().settings;
        const steps = { ArrowLeft: -1, ArrowDown: -1, ArrowRight: 1, ArrowUp: 1, PageDown: -glyph, PageUp: glyph };
        const step = steps[event.key];
        if (step !== undefined) {
            event.preventDefault();
            setWidth(width + (event.shiftKey ? Math.sign(step) * glyph : step));
        }
    }

    // ---- what is drawn

    // The zoom stays while the edge is dragged.
    show(layout, place) {
        this.#layout = layout;
        this.#starts = layout.pageStarts();
        this.#place = { ...place, ...(dragged && { zoom: dragged.zoom }) };
        this.#fit();
        this.draw();
        this.mark();
        this.#canvas.setAttribute('aria-label', `The screen. ${this.#spoken()}`);
    }

    // The canvas has as many dots as the browser draws, and fewer than the screen where that is needed.
    #fit() {
        const { above, below, right, zoom, dense } = this.#place;
        const { width, height } = this.#layout.settings;
        const wide = GUTTER + (width + right) * zoom + TAIL;
        const high = HEAD + (above + height + below) * zoom + FOOT;
        const most = Math.min(Math.sqrt(CANVAS_DOTS / (wide * high)), CANVAS_SIDE / Math.max(wide, high));
        this.#place.dense = Math.min(dense, most);
        this.#size(wide, high);
        Object.assign(this.#canvas.style, { width: `${wide}px`, height: `${high}px` });
        const [left, top] = [GUTTER + width * zoom, HEAD + above * zoom - 4];
        Object.assign(this.#edge.style, { left: `${left}px`, top: `${top}px`, height: `${height * zoom + 8}px` });
        this.#edge.setAttribute('aria-valuenow', width);
        this.#edge.setAttribute('aria-valuetext', `${width} pixels`);
    }

    // A browser may have a lower limit: then half as many dots a side are tried, some times.
    #size(wide, high) {
        for (let tries = 0; tries < 5; tries++) {
            const { dense } = this.#place;
            const size = { width: Math.ceil(wide * dense), height: Math.ceil(high * dense) };
            if (size.width !== this.#canvas.width || size.height !== this.#canvas.height) {
                Object.assign(this.#canvas, size);
            } else if (this.#lacks !== NO_CANVAS) {
                return;
            }
            if (canDraw(this.#canvas)) {
                this.#lacks = '';
                return;
            }
            this.#lacks = NO_CANVAS;
            this.#place.dense = dense / 2;
        }
    }

    // Draws in slices, so that the page answers between them. Where all is drawn in one, nothing is seen of that.
    draw() {
        this.leave();
        if (this.#lacks === NO_CANVAS) {
            this.showVerdict();
            return;
        }
        this.#steps = this.#drawing();
        this.#slow = new Slow('The picture is being drawn.', () => this.#end(NOT_WHOLE));
        busyWith('drawn', atWork.drawn + 1);
        this.#drawSlice();
        if (this.#steps !== null) {
            this.showVerdict();
        }
    }

    #drawSlice() {
        const until = performance.now() + SLICE_TIME;
        try {
            for (let dots = 0; dots < SLICE_DOTS && performance.now() < until; ) {
                const { done, value } = this.#steps.next();
                if (done) {
                    this.#end(this.#place.zoom * this.#place.dense < 1 ? COARSE : '');
                    return;
                }
                dots += value;
            }
            this.#next = setTimeout(() => this.#drawSlice());
        } catch (error) {
            this.#end(`The picture cannot be drawn: ${error.message}`);
        }
    }

    // Draws no further.
    leave() {
        clearTimeout(this.#next);
        if (this.#steps !== null) {
            this.#steps = null;
            this.#slow.done();
            busyWith('drawn', atWork.drawn - 1);
        }
    }

    // The drawing is at its end, and lacks something or nothing.
    #end(lacks) {
        this.leave();
        this.#lacks = lacks;
        this.showVerdict();
    }

    // Each step draws something, and says how many dots that took.
    *#drawing() {
        const { zoom, dense, above } = this.#place;
        const pen = this.#canvas.getContext('2d');
        const scale = zoom * dense;
        const [left, top] = [GUTTER * dense, (HEAD + above * zoom) * dense];
        const on = { pen, colour: colours(), scale, x: (x) => Math.round(left + x * scale), y: (y) => Math.round(top + y * scale) };
        pen.clearRect(0, 0, this.#canvas.width, this.#canvas.height);
        this.#drawBox(on);
        yield (this.#canvas.width * this.#canvas.height) / 4;
        const lines = this.#linesDrawn();
        const { glyph, base } = this.#layout.settings;
        for (const line of lines) {
            yield this.#drawLine(on, line) * glyph * base * scale * scale;
        }
        this.#drawNumbers(on, lines);
    }

    // The mark around the line that is pointed at lies over the picture: nothing is drawn again for it.
    mark() {
        const isHere = state.pointed?.wrap === this.#wrap;
        this.#mark.hidden = !isHere;
        if (isHere) {
            const { settings, index } = this.#layout;
            const { zoom, above } = this.#place;
            const top = HEAD + (above + index[state.pointed.line] - settings.top) * zoom;
            const place = { left: GUTTER, top, width: settings.width * zoom, height: settings.base * zoom };
            Object.entries(place).forEach(([side, pixels]) => (this.#mark.style[side] = `${pixels}px`));
        }
    }

    // The lines that have a place in the picture, shown or not.
    #linesDrawn() {
        const { settings, index, shows } = this.#layout;
        const { above, below } = this.#place;
        const drawn = [];
        index.forEach((at, k) => {
            const y = at - settings.top;
            if (y + settings.base > -above && y < settings.height + below) {
                drawn.push({ k, y, shows: shows[k] === 1, dropped: this.#layout.droppedIn(k) });
            }
        });
        return drawn;
    }

    #drawBox({ pen, colour, x, y }) {
        const { width, height } = this.#layout.settings;
        pen.fillStyle = colour('screen');
        pen.fillRect(x(0), y(0), x(width) - x(0), y(height) - y(0));
        pen.strokeStyle = colour('screen-rule');
        const thick = this.#place.dense;
        pen.lineWidth = thick;
        pen.strokeRect(x(0) - thick / 2, y(0) - thick / 2, x(width) - x(0) + thick, y(height) - y(0) + thick);
    }

    // Answers how many characters it drew.
    #drawLine(on, { k, y, shows, dropped }) {
        const { pen, colour, scale } = on;
        const { settings } = this.#layout;
        let drawn = 1;
        this.#drawBand(on, k, y);
        const ink = colour(shows ? 'screen-ink' : 'hidden-ink');
        for (const event of this.#layout.eventsOf(k)) {
            if (event.kind === Drawn.PRINTED) {
                drawn += this.#drawText(on, this.#printed(event), ink, event.x, y);
            }
        }
        if (dropped > 0) {
            const at = this.#layout.penAfter(k);
            const text = [...this.#layout.lostIn(k)].slice(0, LOST_MOST);
            drawn += this.#drawText(on, text, colour('lost'), at, y);
            const end = at + text.length * settings.glyph;
            pen.fillStyle = colour('lost');
            pen.fillRect(on.x(at), on.y(y + settings.base) - scale / 2, on.x(end) - on.x(at), Math.max(1, scale / 2));
        }
        return drawn;
    }

    // Behind a line: what the last edit did to it.
    #drawBand({ pen, colour, x, y }, k, top) {
        const { width, base } = this.#layout.settings;
        const done = state.colour ? fateOf(edits.get(this.#wrap), k) : '';
        if (done === 'laid' || done === 'moved') {
            pen.fillStyle = colour(done);
            pen.fillRect(x(0), y(top), x(width) - x(0), y(top + base) - y(top));
        }
    }

    #printed(event) {
        const text = this.#layout.textBetween(event.start, event.end);
        return [...(text === '\u00ad' ? '-' : text)];
    }

    #drawText({ pen, scale, x, y }, text, colour, left, top) {
        const { glyph, base } = this.#layout.settings;
        text.forEach((character, k) => {
            glyphs.put(pen, character, colour, x(left + k * glyph), y(top), glyph * scale, base * scale);
        });
        return text.length;
    }

    // The numbers of the lines, as far as they have room, and where pages begin.
    #drawNumbers({ pen, colour, y }, lines) {
        const { dense } = this.#place;
        const { base } = this.#layout.settings;
        pen.textBaseline = 'middle';
        pen.textAlign = 'right';
        let free = -Infinity;
        for (const { k, y: top, dropped, shows } of lines) {
            const middle = y(top + base / 2);
            if (k > 0 && this.#starts.has(k)) {
                pen.fillStyle = colour('accent');
                pen.fillRect(0, y(top) - dense, (GUTTER - 4) * dense, dense);
            }
            if (middle >= free || dropped > 0) {
                pen.font = `${dropped > 0 ? 'bold ' : ''}${12 * dense}px ui-monospace, "DejaVu Sans Mono", monospace`;
                pen.fillStyle = colour(dropped > 0 ? 'lost' : shows ? 'quiet' : 'hidden-ink');
                pen.fillText(k, (GUTTER - 10) * dense, middle);
                free = middle + 12 * dense;
            }
        }
        pen.textAlign = 'left';
    }

    // ---- what is said

    #spoken() {
        const { shows, lineCount } = this.#layout;
        const told = Array.from({ length: Math.min(60, lineCount) }, (_, k) => {
            const printed = this.#layout.eventsOf(k).filter((event) => event.kind === Drawn.PRINTED);
            const words = printed.map((event) => this.#printed(event).join(''));
            return shows[k] === 1 ? `Line ${k}: ${words.join(' ') || 'empty'}.` : `Line ${k} does not show.`;
        });
        return told.join(' ');
    }

    // What is lost, what does not show, and what the picture itself lacks: only where there is nothing of these the whole clue is there.
    showVerdict() {
        const layout = this.#layout;
        const { hidden, lostCount } = layout;
        const items = layout.lost(LOST_TOLD).map((one) => lostItem(layout, one));
        if (lostCount > LOST_TOLD) {
            const more = layout.lostCharacters() - layout.lost(LOST_TOLD).reduce((sum, { count }) => sum + count, 0);
            items.push(make('li', {}, `and ${characters(more)} in later lines`));
        }
        if (hidden > 0) {
            items.push(make('li', {}, `${counted(hidden, 'line does', 'lines do')} not show: the box is too low`));
        }
        const doubts = [state.late || state.doubt, this.#steps === null ? this.#lacks : 'The picture is being drawn'].filter((words) => words !== '');
        const found = items.length > 0 ? ['Part of the clue is not on the screen', make('ul', {}, ...items)] : [];
        this.#verdict.className = `verdict ${lostCount > 0 ? 'bad' : hidden > 0 || doubts.length > 0 ? 'warn' : ''}`;
        const words = doubts.map((doubt) => make('div', { className: 'doubt' }, doubt));
        this.#verdict.replaceChildren(...words, ...(words.length + found.length === 0 ? ['The whole clue is on the screen'] : found));
    }
}

const pictures = new Map([[0, new Picture(0)], [1, new Picture(1)]]);
const showVerdicts = () => [...layouts.keys()].forEach((wrap) => pictures.get(wrap).showVerdict());

// What an edit did to a line.
function fateOf(edit, line) {
    if (edit === undefined) {
        return '';
    }
    return line < edit.first ? 'untouched' : line < edit.first + edit.laid ? 'laid' : 'moved';
}

// ---- the line that is pointed at

const END_WORDS = {
    [End.NEW_LINE]: 'a new line',
    [End.CARRIAGE_RETURN]: 'a carriage return',
    [End.END_OF_TEXT]: 'the end of the text',
    [End.LINE_BREAK]: 'a line break',
};

function pointAtLine(wrap, line = null) {
    const pointed = line === null ? null : { wrap, line };
    if (pointed?.line === state.pointed?.line && pointed?.wrap === state.pointed?.wrap) {
        return;
    }
    state.pointed = pointed;
    renderPointed();
}

// Which line is there the library says. While it looks, only the newest place waits.
let looking = false;
let under = null; // the place that is pointed at
async function pointAtY(wrap, y) {
    under = { wrap, y };
    if (looking) {
        return;
    }
    looking = true;
    for (let asked = null; under !== null && asked !== under; ) {
        asked = under;
        const line = await library.ask('find', asked).catch(() => null);
        if (asked === under) {
            pointAtLine(asked.wrap, line);
        }
    }
    looking = false;
}
function pointAtNone() {
    under = null;
    pointAtLine(null);
}

function pointAtRow(event) {
    const row = event.target.closest('tr[data-line]');
    pointAtLine(state.settings.wrap, row === null ? null : Number(row.dataset.line));
}

function renderPointed() {
    const { pointed, settings } = state;
    document.querySelector('#lines tr.pointed')?.classList.remove('pointed');
    $('pointed').textContent = 'Point at a line, or press the arrow keys on the picture.';
    [...layouts.keys()].forEach((wrap) => pictures.get(wrap).mark());
    if (pointed === null) {
        return;
    }
    const layout = layouts.get(pointed.wrap);
    const line = layout.line(pointed.line);
    const text = visible(layout.lineText(pointed.line));
    $('pointed').textContent = `Line ${pointed.line}: “${text}”, from byte ${line.start}, ends by ${END_WORDS[line.end]}.`;
    if (pointed.wrap === settings.wrap) {
        document.querySelector(`#lines tr[data-line="${pointed.line}"]`)?.classList.add('pointed');
    }
}

// ---- the tables

const COLUMNS = {
    start: ['start', 'the offset where the line starts'],
    restEnd: ['rest end', 'where the rest of a cut run of spaces ends that the line starts with, or 0'],
    restCount: ['rest count', 'how many spaces that rest counts as'],
    end: ['end', 'how the line ends: 0 new line, 1 carriage return, 2 end of the text, 3 line break'],
    left: ['left', "how far from the box's left side the line is drawn"],
    space: ['space', 'the width of a space'],
    extra: ['extra', 'so many of the first spaces are a pixel wider'],
    width: ['width', 'the width measured'],
    dropped: ['dropped', 'how many characters no line draws'],
    reach: ['reach', 'the offset after the furthest character that the line depends on'],
    chars: ['chars', "how many characters stand before the line's start"],
};

function lineRow(layout, k) {
    const line = layout.line(k);
    const fate = state.colour ? fateOf(edits.get(state.settings.wrap), k) : '';
    const numbers = LINE.map((column) => make('td', { data: { column } }, String(line[column])));
    const row = make('tr', { className: `${fate} ${line.dropped > 0 ? 'lost' : ''}`, data: { line: k } });
    row.append(make('th', { scope: 'row' }, String(k)), ...numbers, make('td', {}, visible(layout.lineText(k)).slice(0, 80)));
    return row;
}

function renderLines() {
    const layout = shown();
    const rows = Math.min(layout.lineCount, state.rows);
    $('lines').tBodies[0].replaceChildren(...Array.from({ length: rows }, (_, k) => lineRow(layout, k)));
    const lines = counted(layout.lineCount, 'line', 'lines');
    $('counts').textContent = `${lines}, counted from 0; ${grouped(layout.height)} pixels high; wrap ${state.settings.wrap}`;
    $('more').hidden = rows === layout.lineCount;
    $('more').textContent = `Show more of the other ${grouped(layout.lineCount - rows)} lines`;
}

function renderPages() {
    const layout = shown();
    const pages = layout.pages(ROWS + 1);
    const rows = pages.slice(0, ROWS).map((page, k) => {
        const last = (pages[k + 1]?.line ?? layout.lineCount) - 1;
        const lines = last === page.line ? String(page.line) : `${page.line} to ${last}`;
        const cells = [lines, `${page.start} to ${page.end}`, visible(layout.lineText(page.line)).slice(0, 60)];
        return make('tr', {}, make('th', { scope: 'row' }, String(k + 1)), ...cells.map((words) => make('td', {}, words)));
    });
    $('pages').tBodies[0].replaceChildren(...rows);
    $('pages-title').textContent = `${counted(layout.pageCount, 'page', 'pages')} of ${counted(state.h, 'line', 'lines')}`;
}

function renderFits() {
    const most = counted(state.h, 'line', 'lines');
    const box = `A box of ${state.settings.width} pixels`;
    $('fits').textContent = fits
        ? `${box} shows the clue in at most ${most}, and loses nothing.`
        : `${box} does not do: the clue has more than ${most}, or loses a word.`;
    $('planned').textContent = '';
    $('use').hidden = true;
}

function renderEdited() {
    const edit = edits.get(state.settings.wrap);
    $('legend').hidden = !state.colour;
    $('edited').textContent = '';
    if (edit !== undefined) {
        const untouched = counted(edit.first, 'line', 'lines');
        $('edited').textContent = `The last edit: ${untouched} untouched, ${grouped(edit.laid)} laid, ${grouped(edit.moved)} moved.`;
    }
}

// ---- all of it

function renderPictures() {
    if (layouts.size === 0) {
        return;
    }
    const figures = [...layouts.keys()].map((wrap) => pictures.get(wrap).figure);
    if (figures.length !== $('pictures').children.length || figures[0] !== $('pictures').firstChild) {
        $('pictures').replaceChildren(...figures);
        [...pictures].filter(([wrap]) => !layouts.has(wrap)).forEach(([, picture]) => picture.leave());
    }
    const place = measure(Math.min(...figures.map((figure) => figure.clientWidth)));
    for (const [wrap, layout] of layouts) {
        pictures.get(wrap).show(layout, place);
    }
}

function render() {
    renderPictures();
    renderLines();
    renderPages();
    renderFits();
    renderEdited();
    renderPointed();
    renderControls();
    const length = shown().bytes.length;
    $('size').textContent = `${grouped(length)} of ${grouped(TEXT_MAX)} bytes`;
    keepAddress();
}

// ---- the address

let keeping = 0;
function keepAddress() {
    clearTimeout(keeping);
    keeping = setTimeout(() => history.replaceState(null, '', `#${addressWords()}`), 150);
}

function addressWords() {
    const words = new URLSearchParams({ t: shown().text });
    const { settings, h, compare, colour, zoom } = state;
    const usual = { ...AT_FIRST, ...VIEW_AT_FIRST };
    for (const [name, value] of Object.entries({ ...settings, h, compare: Number(compare), colour: Number(colour), zoom })) {
        if (value !== usual[name]) {
            words.set(name, value);
        }
    }
    return words;
}

function readAddress(address) {
    const words = new URLSearchParams(new URL(address).hash.slice(1));
    const read = ([name, usual]) => [name, words.has(name) ? wholeNumber(name, words.get(name)) : usual];
    const readAll = (usual) => Object.fromEntries(Object.entries(usual).map(read));
    const { h, compare, colour, zoom } = readAll(VIEW_AT_FIRST);
    return {
        text: words.get('t') ?? WELCOME,
        settings: readAll(AT_FIRST),
        compare: words.has('t') ? compare === 1 : true,
        h: fitLines(h),
        view: { colour: colour === 1, zoom: Math.max(0, Math.min(8, zoom)), rows: ROWS },
    };
}

// Shows what a link says. What is bad in it is refused in words, and what was there stays.
const LINK = 'The link: ';
function openAddress(address) {
    clearTimeout(keeping);
    const open = () => {
        const { text, settings, compare, h, view: look } = readAddress(address);
        want({ text, settings, compare, h, view: look, fresh: true }, { before: LINK, then: afterLink });
    };
    if (!attempt(null, open, LINK)) {
        afterLink(false);
    }
}

// Where nothing was there before a bad link, the page shows what it does at first, under what it has said.
function afterLink(isDone) {
    if (isDone || layouts.size > 0) {
        $('clue').value = toBox(shown().text);
        return;
    }
    const words = $('refusal').textContent;
    const said = (isThere) => {
        if (isThere) {
            afterLink(true);
            refuse(words);
        }
    };
    want({ text: WELCOME, settings: AT_FIRST, compare: true, fresh: true }, { then: said });
}

// ---- the settings

const FIELDS = [
    ['width', 'Box width', [0, 240]],
    ['height', 'Box height', [0, 240]],
    ['glyph', 'Character width', [1, 24]],
    ['base', 'Line height', [1, 24]],
    ['spacing', 'From line to line', [0, 48]],
    ['paragraph', 'More after a new line', [0, 48]],
    ['tab', 'Tab stops every', [0, 96]],
    ['top', 'Box top', [-48, 48]],
];
const CHOICES = [
    ['wrap', 'A word that has no room', ['is dropped', 'waits']],
    ['alignment', 'Alignment', ['left', 'centre', 'right', 'justified']],
    ['vertical', 'Vertical alignment', ['top', 'middle', 'bottom']],
    ['leading', 'Leading spaces', ['off', 'on']],
    ['trailing', 'Trailing spaces, retired', ['off']],
];

function setSetting(name, words, field) {
    attempt(field, () => want({ settings: { [name]: wholeNumber(name, String(words)) }, view: { rows: ROWS } }, { field }));
}
const setWidth = (width) => setSetting('width', Math.max(limits.width[0], Math.min(limits.width[1], width)), $('width'));

function makeField([name, label]) {
    const [min, max] = limits[name];
    const field = make('input', { type: 'number', id: name, min, max, step: 1 });
    const slider = make('input', { type: 'range', id: `${name}-slider`, step: 1 });
    slider.setAttribute('aria-label', `${label}, as a slider`);
    field.addEventListener('input', () => setSetting(name, field.value, field));
    field.addEventListener('change', () => {
        forgetRefusals();
        renderControls();
    });
    slider.addEventListener('input', () => setSetting(name, slider.value, field));
    return make('div', { className: 'setting' }, make('label', { htmlFor: name }, `${label} `, make('small', {}, name)), field, slider);
}

function makeChoice([name, label, values]) {
    const choices = values.map((word, value) => {
        const radio = make('input', { type: 'radio', name, value, id: `${name}-${value}`, disabled: values.length === 1 });
        radio.addEventListener('change', () => setSetting(name, value, radio));
        return make('label', {}, radio, make('span', {}, word));
    });
    const legend = make('legend', {}, `${label} `, make('small', {}, name));
    return make('fieldset', {}, legend, make('div', { className: 'choices' }, ...choices));
}

// What is wanted last is what the controls show. A field that is being written in stays as it is where its number was refused.
function renderControls(isRefused = false) {
    const { settings, h, compare } = newest();
    for (const [name, , [least, most]] of FIELDS) {
        const slider = $(`${name}-slider`);
        const value = settings[name];
        slider.min = value < least ? limits[name][0] : least;
        slider.max = value > most ? limits[name][1] : most;
        slider.value = value;
        if (document.activeElement !== $(name) || (!isRefused && Number($(name).value) !== value)) {
            $(name).value = value;
        }
    }
    for (const [name] of CHOICES) {
        $(`${name}-${settings[name]}`).checked = true;
    }
    if (document.activeElement !== $('h') || !isRefused) {
        $('h').value = h;
    }
    $('compare').setAttribute('aria-pressed', compare);
    $('colour').checked = state.colour;
    $('zoom').value = state.zoom;
}

// ---- what is written

const KEYS = [
    ['tab', '\t'],
    ['carriage return', '⏎'],
    ['no-break space', '\u00a0'],
    ['soft hyphen', '\u00ad'],
    ['zero width space', '\u200b'],
    ['figure space', '\u2007'],
    ['narrow space', '\u202f'],
];

function makeKey([name, character]) {
    const key = make('button', { type: 'button' }, name);
    key.addEventListener('click', () => {
        const box = $('clue');
        box.setRangeText(character, box.selectionStart, box.selectionEnd, 'end');
        box.dispatchEvent(new InputEvent('input', { bubbles: true }));
        box.focus();
    });
    return key;
}

const written = () => want({ text: fromBox($('clue').value) }, { field: $('clue') });

// ---- files

// Hands a file's name and bytes on. One that cannot be read, as a folder, is told.
async function withFile(input, use) {
    const [file] = input.files;
    input.value = '';
    const bytes = await file.arrayBuffer().catch(() => null);
    if (bytes === null) {
        refuse(`${file.name} cannot be read.`);
    } else {
        use(file.name, new Uint8Array(bytes));
    }
}

function openText(name, bytes) {
    const told = (isDone) => {
        if (isDone) {
            $('clue').value = toBox(shown().text);
            tell(`${name} is opened.`);
        }
    };
    want({ text: bytes, fresh: true, view: { rows: ROWS } }, { before: `${name} is not opened. `, then: told });
}

// A layout file has no text: its settings are taken, and its lines are held to those of the text that is here.
async function openLayout(name, bytes) {
    const before = `${name} is not opened. `;
    try {
        const read = await slowly('The layout file is being read.', library.ask('read', { bytes }));
        want({ settings: read.settings, view: { rows: ROWS } }, { before, then: (isDone) => isDone && tell(comparedWords(name, read)) });
    } catch (error) {
        openRefused(name, error, before);
    }
}

function comparedWords(name, { table, textLength }) {
    const here = shown().table;
    if (table.length === here.length && table.every((number, k) => number === here[k])) {
        return `${name} is the layout of this clue.`;
    }
    const has = `${counted(table.length / LINE.length, 'line', 'lines')} of a text of ${counted(textLength, 'byte', 'bytes')}`;
    return `${name} has ${has}, which is not this clue: its settings are taken.`;
}

function openRefused(name, error, before) {
    if (error.number === Refused.RETIRED_SETTING) {
        const words = `${name}: ${refusalWords(error)} The settings are taken.`;
        want({ settings: error.settings, view: { rows: ROWS } }, { before, then: (isDone) => isDone && tell(words) });
        return;
    }
    forgetRefusals();
    tell('');
    refuse(before + (error instanceof Stopped ? 'It was stopped.' : refusalWords(error)));
}

async function save() {
    try {
        const file = await slowly('The layout file is being written.', library.ask('write', { wrap: state.settings.wrap }));
        const address = URL.createObjectURL(new Blob([file], { type: 'application/octet-stream' }));
        make('a', { href: address, download: 'clue.layout' }).click();
        setTimeout(() => URL.revokeObjectURL(address), 1000);
        tell('The layout is saved as clue.layout.');
    } catch (error) {
        refuse(`The layout is not saved. ${refusalWords(error)}`);
    }
}

// ---- the other controls

async function propose() {
    const { settings, h } = state;
    const asked = library.ask('plan', { wrap: settings.wrap, settings, h });
    const width = await slowly('A width is being looked for.', asked).catch((error) => error);
    if (width instanceof Error) {
        refuse(width instanceof Stopped ? 'No width is proposed: it was stopped.' : refusalWords(width));
        return;
    }
    const most = counted(h, 'line', 'lines');
    $('planned').textContent =
        width === null
            ? `No width from 0 to ${grouped(limits.width[1])} shows it in ${most}.`
            : `${grouped(width)} pixels is the smallest width for ${most} with nothing lost.`;
    $('use').hidden = width === null || width === state.settings.width;
    $('use').value = width ?? '';
}

// A number of lines that a page may have: 0 is the library's to refuse.
function fitLines(h) {
    if (h < 0 || h > LINES_MOST) {
        throw new Unfit(`the number of lines is ${h}, and may be 1 to ${grouped(LINES_MOST)}`);
    }
    return h;
}

function setLines() {
    attempt($('h'), () => want({ h: fitLines(wholeNumber('the number of lines', $('h').value)) }, { field: $('h') }));
}

async function copyLink() {
    history.replaceState(null, '', `#${addressWords()}`);
    try {
        await navigator.clipboard.writeText(location.href);
        tell('The link is copied.');
    } catch {
        tell('The link is in the address bar.');
    }
}

function listen() {
    const on = (id, event, action) => $(id).addEventListener(event, action);
    on('clue', 'input', written);
    on('open-text', 'change', () => withFile($('open-text'), openText));
    on('open-layout', 'change', () => withFile($('open-layout'), openLayout));
    on('save', 'click', save);
    on('link', 'click', copyLink);
    on('compare', 'click', () => want({ compare: !newest().compare, view: { rows: ROWS } }));
    on('colour', 'change', () => view({ colour: $('colour').checked }));
    on('zoom', 'change', () => view({ zoom: Number($('zoom').value) }));
    on('reset', 'click', () => want({ settings: AT_FIRST, view: { rows: ROWS } }));
    on('h', 'input', setLines);
    on('plan', 'click', propose);
    on('use', 'click', () => setWidth(Number($('use').value)));
    on('more', 'click', () => view({ rows: state.rows + ROWS }));
    on('stop', 'click', () => Slow.stopAll());
    on('lines', 'pointerover', pointAtRow);
    on('lines', 'pointerleave', pointAtNone);
    window.addEventListener('hashchange', (event) => openAddress(event.newURL));
    window.addEventListener('resize', renderPictures);
    matchMedia('(prefers-color-scheme: dark)').addEventListener('change', renderPictures);
}

function start() {
    if (typeof WebAssembly !== 'object') {
        refuse('This browser has no WebAssembly, in which the library runs: it is too old, or WebAssembly is switched off.');
        return;
    }
    if (typeof Worker !== 'function') {
        refuse('This browser has no Worker, in which the library runs: it is too old.');
        return;
    }
    $('settings').append(...CHOICES.slice(0, 1).map(makeChoice), ...FIELDS.map(makeField), ...CHOICES.slice(1).map(makeChoice));
    $('keys').append(...KEYS.map(makeKey));
    const columns = [['line', ''], ...Object.values(COLUMNS), ['text', '']];
    $('lines').tHead.rows[0].append(...columns.map(([word, title]) => make('th', { scope: 'col', title }, word)));
    listen();
    openAddress(location.href);
}

start();
