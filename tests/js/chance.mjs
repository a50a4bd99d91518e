// Texts, settings and edits by chance. The same seed makes the same ones in every run.
let state = 1;

export function seed(number) {
    state = number >>> 0 || 1;
}

// A number below n.
export function below(n) {
    state ^= state << 13;
    state ^= state >>> 17;
    state ^= state << 5;
    return (state >>> 0) % n;
}

export const oneOf = (list) => list[below(list.length)];

const MIXES = [
    ['a', 'b', 'c', 'd', ' ', ' ', ' ', '\n', '\r', '\t', '\u00a0', '\u00ad', 'é', '\u200b', '\u3000', '\u{1f600}'],
    ['a', 'b', ' ', ' ', ' ', ' ', ' ', ' ', '\n', '\u3000', '\u200b', '\u0085', '\t'],
    ['a', 'b', 'c', 'd', 'e', 'f', ' ', ' ', '\u00a0', '\u202f', '\u00ad', '\u00ad', 'é', '\n', '\u{1f600}'],
    ['a', 'b', 'c', 'd', 'e', 'f', 'g', 'h', 'i', 'j', 'é', ' ', ' ', ' ', '\n'],
];

export function randomText(characters) {
    const mix = oneOf(MIXES);
    return Array.from({ length: below(characters + 1) }, () => oneOf(mix)).join('');
}

export function randomSettings() {
    const glyph = 1 + below(8);
    return {
        glyph,
        width: below(12 * glyph),
        tab: below(6 * glyph),
        spacing: below(20),
        paragraph: below(10),
        base: 1 + below(12),
        height: below(100),
        top: below(40) - 20,
        alignment: below(4),
        vertical: below(3),
        leading: below(2),
        trailing: 0,
        wrap: below(2),
    };
}

// An edit between characters, as two offsets in bytes and what is put in.
export function randomEdit(text) {
    const characters = [...text];
    const ends = [below(characters.length + 1), below(characters.length + 1)].sort((x, y) => x - y);
    const [a, b] = ends.map((end) => new TextEncoder().encode(characters.slice(0, end).join('')).length);
    const inserted = randomText(6);
    const after = characters.slice(0, ends[0]).join('') + inserted + characters.slice(ends[1]).join('');
    return { a, b, inserted, after };
}
