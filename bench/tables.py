"""What bench/run prints of counts and times."""
import os
import re
import statistics

# ours grows faster where it grows by more than this factor over harfrust's growth
FASTER = 1.05


def dumped(folder):
    """The instructions of each (side, load) that callgrind dumped."""
    got = {}
    for name in os.listdir(folder):
        text = open(os.path.join(folder, name)).read()
        label = re.search(r'^desc: Trigger: Client Request: (\w+)\|(.*)$', text, re.M)
        if label:
            got[label.groups()] = int(re.search(r'^summary: (\d+)', text, re.M).group(1))
    return got


def per_glyph(lines, got):
    return [(load, got['theirs', load] / int(units), got['ours', load] / int(units)) for load, units in lines]


def row(name, theirs, ours):
    print(f'{name:26}{theirs:12.2f}{ours:12.2f}{ours / theirs:8.2f}')


def instructions(counts, n):
    print(f'\nInstructions a glyph, {n:,} glyphs\n')
    print(f'{"load":26}{"harfrust":>12}{"ours":>12}{"ratio":>8}')
    for load in counts:
        row(*load)


def times(counts, runs):
    print(f'\nNanoseconds a glyph, medians of {runs} runs in turn (15 of the long loads)\n')
    print(f'{"load":26}{"harfrust":>12}{"ours":>12}{"ratio":>8}')
    for load in counts:
        row(*load)
    print()


def growth(counts):
    """How instructions a glyph grow with the length of the run."""
    lengths = sorted(counts)
    print('\nGrowth: instructions a glyph at each length, and the last over the first\n')
    print(' ' * 26 + f'{"harfrust":>34}{"":8}{"ours":>30}')
    heads = ''.join(f'{n:>10,}' for n in lengths) + f'{"grows":>8}'
    print(f'{"load":26}{heads}{heads}')
    faster = []
    for rows in zip(*(counts[n] for n in lengths)):
        sides = [[r[1] for r in rows], [r[2] for r in rows]]
        theirs, ours = (side[-1] / side[0] for side in sides)
        if ours > FASTER * theirs:
            faster.append(f'{rows[0][0]} ({ours:.2f}, harfrust {theirs:.2f})')
        print(f'{rows[0][0]:26}' + ''.join(''.join(f'{x:10.2f}' for x in side) + f'{side[-1] / side[0]:8.2f}' for side in sides))
    print(f'\nof ours grow faster than harfrust\'s: {"; ".join(faster) or "none"}')


def last_line(counts):
    ratios = [ours / theirs for _, theirs, ours in counts]
    return f'worst {max(ratios):.2f}, median {statistics.median(ratios):.2f}'
