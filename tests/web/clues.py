"""Clues by chance: the lines that the page shows are those of the library for this machine."""
import random

from driving import NAMES, same
from native import tables

MIXES = [
    'abcdefgh    \n',
    'ab cd\t\r\n\u00a0\u00ad\u00e9\u200b\u3000\U0001f600',
    'a       \n\u3000\t',
    'abcdef \u00a0\u202f\u00ad\u00ad\u00e9\n',
]


def random_clue(chance):
    mix = chance.choice(MIXES)
    return ''.join(chance.choice(mix) for _ in range(chance.randrange(60)))


def random_settings(chance):
    glyph = chance.randrange(1, 9)
    upper = [12 * glyph, 6 * glyph, 20, 10]
    width, tab, spacing, paragraph = (chance.randrange(limit) for limit in upper)
    others = [chance.randrange(limit) for limit in (4, 3, 2)]
    return dict(
        zip(
            NAMES,
            [
                glyph,
                width,
                tab,
                spacing,
                paragraph,
                chance.randrange(1, 12),
                chance.randrange(100),
                chance.randrange(-20, 20),
                *others,
                0,
                chance.randrange(2),
            ],
        )
    )


# Shows each clue by its link, then changes it in the box, and answers both tables.
SEEN = '''
const [cases, done] = arguments;
const box = document.getElementById('clue');
const numbers = (row) => [...row.querySelectorAll('td[data-column]')].map((cell) => Number(cell.textContent));
const table = () => [...document.querySelectorAll('#lines tbody tr')].map(numbers);
const settled = async () => {
    while (document.documentElement.dataset.busy) {
        await new Promise((told) => setTimeout(told));
    }
};
const come = () => new Promise((told) => window.addEventListener('hashchange', told, { once: true }));
(async () => {
    const seen = [];
    for (const [words, edited] of cases) {
        const there = come();
        location.hash = `#${new URLSearchParams(words)}`;
        await there;
        await settled();
        const fresh = table();
        box.value = edited;
        box.dispatchEvent(new InputEvent('input', { bubbles: true }));
        await settled();
        seen.push([fresh, table()]);
    }
    done(seen);
})();
'''


# The second table of each comes from laying again. In the box a carriage return has a sign of its own.
def test_chance(driver, times=100):
    chance = random.Random(30)
    cases = [(random_settings(chance), random_clue(chance)) for _ in range(times)]
    edited = []
    for settings, clue in cases:
        at = chance.randrange(60)
        edited.append((settings, clue[:at] + random_clue(chance)[:8] + clue[at + 3 :]))
    shown = [({'t': clue, **settings}, after.replace('\r', '\u23ce')) for (settings, clue), (_, after) in zip(cases, edited)]
    seen = driver.execute_async_script(SEEN, shown)
    for case, (fresh, _), expected in zip(cases, seen, tables(cases)):
        same(f'the lines of {case}', expected, fresh)
    for case, (_, again), expected in zip(edited, seen, tables(edited)):
        same(f'the lines after an edit: {case}', expected, again)
    same('all were seen', times, len(seen))
