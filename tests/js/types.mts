// Uses the types of bisquemop.mjs, and is compiled and not run. A line that has to be refused is marked.
import { Alignment, Refusal, Wrap, load } from 'bisquemop';
import type { Bisquemop, Layout, Line, Settings } from 'bisquemop';

export async function use(): Promise<number> {
    const library: Bisquemop = await load(new URL('bisquemop.wasm', 'https://example.org/'));
    const layout: Layout = library.lay('not the baker', { width: 72, wrap: Wrap.WAIT, alignment: Alignment.LEFT });
    const lines: readonly Line[] = layout.lines;
    const settings: Settings = library.checkSettings();
    for (const line of library.lineByLine('a', settings)) {
        library.oneLine('a', { start: line.start });
    }
    const width: number | null = library.columnsPlan('a', 3, { glyph: 6 });
    // @ts-expect-error a setting that there is not
    library.lay('a', { widht: 3 });
    // @ts-expect-error the width may be none
    const sure: number = library.columnsPlan('a', 3);
    // @ts-expect-error what was laid is not changed from outside
    layout.lines = [];
    // @ts-expect-error nor a line of it
    layout.lines[0].start = 1;
    try {
        return layout.edit(0, 3, '').laid + lines.length + (width ?? 0) + sure + library.pages('a', 2).pages.length;
    } catch (error) {
        return error instanceof Refusal ? error.number : 0;
    }
}
