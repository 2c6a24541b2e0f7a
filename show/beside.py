"""The code of one function in two images beside each other: which instructions are the same."""
from simulator.decoder import decode

NOP = 0x00000013
MOST_EDITS = 300
# One edit in so many instructions, and the code is another.
SPARSE, FREE = 4, 6

Code = list[tuple[int, int]]  # addresses and words
Pairs = list[tuple[int | None, int | None]]  # addresses in both, or in one


def beside(own: Code, other: Code) -> tuple[Pairs, bool] | None:
    """Each address of both, in order, with that of the same instruction, and whether all of them are the same; None where too many aren't.
    What does nothing in the other one is a marker's."""
    pairs = exact(own, other)
    if pairs is not None:
        return pairs, True
    edits = edited([it for it in own if it[1] != NOP], [it for it in other if it[1] != NOP])
    return None if edits is None else (edits, False)


def exact(own: Code, other: Code) -> Pairs | None:
    pairs: Pairs = []
    at = 0
    for place, word in other:
        if at < len(own) and is_same(own[at][1], word):
            pairs.append((own[at][0], place))
            at += 1
        elif word == NOP:
            pairs.append((None, place))
        else:
            return None
    return pairs if at == len(own) else None


def is_same(one: int, other: int) -> bool:
    """Whether two words are one instruction, but for how far a jump goes and for where the data lie."""
    if one == other:
        return True
    a, b = decode(one), decode(other)
    if a is None or b is None or a[0] != b[0]:
        return False
    if a[0] in ("upper", "jump"):
        return a[1:3] == b[1:3]
    if a[0] == "branch":
        return a[1:4] == b[1:4]
    if a[0] == "immediate":
        return a[1:4] == b[1:4] and NOP not in (one, other)
    return a[0] in ("load", "store") and a[1:3] == b[1:3] and a[4:] == b[4:]


def kind(word: int) -> tuple[object, ...]:
    """What an instruction does, whatever the registers."""
    parts = decode(word)
    if parts is None:
        return ("none",)
    if parts[0] == "immediate":
        return parts[0], parts[1], parts[4]
    if parts[0] in ("load", "store"):
        return parts[0], parts[-1]
    return (parts[0], parts[1]) if parts[0] in ("branch", "alu", "mul", "div", "jump") else parts[:1]


def edited(own: Code, other: Code) -> Pairs | None:
    """The same by the least number of instructions to leave out on both sides (Myers, An O(ND) difference algorithm, 1986)."""
    a, b = [kind(word) for _, word in own], [kind(word) for _, word in other]
    most = min(MOST_EDITS, max(len(a), len(b)) // SPARSE + FREE)
    furthest, kept = {1: 0}, []
    for edits in range(most + 1):
        kept.append(dict(furthest))
        for line in range(-edits, edits + 1, 2):
            down = line == -edits or line != edits and furthest.get(line - 1, -1) < furthest.get(line + 1, -1)
            x = furthest.get(line + 1, 0) if down else furthest[line - 1] + 1
            while x < len(a) and x - line < len(b) and a[x] == b[x - line]:
                x += 1
            furthest[line] = x
            if x >= len(a) and x - line >= len(b):
                return walked(own, other, kept)
    return None


def walked(own: Code, other: Code, kept: list[dict[int, int]]) -> Pairs:
    """The pairs on the way back from both ends."""
    pairs: Pairs = []
    x, y = len(own), len(other)
    for edits in range(len(kept) - 1, -1, -1):
        line, furthest = x - y, kept[edits]
        down = line == -edits or line != edits and furthest.get(line - 1, -1) < furthest.get(line + 1, -1)
        before = line + 1 if down else line - 1
        start = furthest.get(before, 0) if edits else 0
        while x > max(start + (not down), 0) and y > max(start - before + down, 0) if edits else x > 0 and y > 0:
            x, y = x - 1, y - 1
            pairs.append((own[x][0], other[y][0]))
        if edits:
            x, y = (x, y - 1) if down else (x - 1, y)
            pairs.append((None, other[y][0]) if down else (own[x][0], None))
    return pairs[::-1]
