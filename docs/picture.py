"""The picture of the groups: each stands above those that it uses, and a line goes to each of these that no other line leads to."""
from repository import below

WIDTH, HEIGHT, ACROSS, DOWN, MARGIN = 124, 46, 22, 44, 16


def layers(groups, uses):
    """The groups by the longest way down from them."""
    level = {}
    for group in groups:
        level[group.name] = 1 + max((level[it] for it in uses[group.name] if it in level), default=-1)
    return level


def places(groups, level):
    """The upper left corner of each box; the greatest layer is at the top, and rows are centred."""
    rows = {}
    for group in groups:
        rows.setdefault(level[group.name], []).append(group)
    most = max(map(len, rows.values()))
    found = {}
    for number, row in rows.items():
        indent = (most - len(row)) * (WIDTH + ACROSS) / 2
        for column, group in enumerate(row):
            found[group.name] = (MARGIN + indent + column * (WIDTH + ACROSS), MARGIN + (max(rows) - number) * (HEIGHT + DOWN))
    return found, (2 * MARGIN + most * (WIDTH + ACROSS) - ACROSS, 2 * MARGIN + (max(rows) + 1) * (HEIGHT + DOWN) - DOWN)


def direct(uses, name):
    """The groups that one uses and that it doesn't reach through another of them."""
    through = set().union(*(below(uses, it) for it in uses[name]))
    return sorted(uses[name] - through)


def drawn(groups, uses):
    at, (width, height) = places(groups, layers(groups, uses))
    rows = [f'<svg xmlns="http://www.w3.org/2000/svg" viewBox="0 0 {width:g} {height:g}" font-family="sans-serif" font-size="13">',
            f'<rect width="{width:g}" height="{height:g}" fill="white"/>']
    for group in groups:
        x, y = at[group.name]
        for other in direct(uses, group.name):
            to, under = at[other]
            rows.append(f'<path d="M{x + WIDTH / 2:g} {y + HEIGHT:g} C{x + WIDTH / 2:g} {y + HEIGHT + DOWN / 2:g} {to + WIDTH / 2:g} {under - DOWN / 2:g} '
                        f'{to + WIDTH / 2:g} {under:g}" fill="none" stroke="#8893a5"/>')
    for group in groups:
        x, y = at[group.name]
        doors = ", ".join(group.doors)
        rows += [f'<g><title>{group.about.replace("&", "&amp;")}{": " + doors if doors else ""}</title>',
                 f'<rect x="{x:g}" y="{y:g}" width="{WIDTH}" height="{HEIGHT}" rx="6" fill="{"#e4edfa" if doors else "#f4f5f7"}" stroke="#44546a"/>',
                 f'<text x="{x + WIDTH / 2:g}" y="{y + 20:g}" text-anchor="middle" font-weight="bold">{group.name}</text>',
                 f'<text x="{x + WIDTH / 2:g}" y="{y + 36:g}" text-anchor="middle" fill="#44546a" font-size="11">{len(group.crates)} crates</text></g>']
    return "\n".join([*rows, "</svg>", ""])
