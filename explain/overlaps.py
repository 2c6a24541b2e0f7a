"""Which images of a list of tasks lie at the same addresses, by regions of the machine."""
import os
import stat

from simulator.images import REGIONS, read_image, region_of

MOST_IMAGE = 16777216
Spans = list[tuple[int, int]]
NAMES = {"flash": "flash", "spm": "the scratchpad", "ram": "RAM"}


def spans_of(path: str) -> Spans:
    """From where to where the segments of an image reach; none where it is no plain file that can be read again."""
    if not stat.S_ISREG(os.stat(path).st_mode):
        return []
    with open(path, "rb") as file:
        _, segments = read_image(file.read(MOST_IMAGE))
    return [(it.start, it.end) for it in segments if it.start < it.end]


def meet(spans: Spans, others: Spans) -> bool:
    return any(max(start, from_) < min(end, to) for start, end in spans for from_, to in others)


def overlapping(images: list[Spans]) -> list[tuple[list[str], tuple[int, ...]]]:
    """Of images by their spans, the regions in which some share an address, each with the numbers of those images; regions with the
    same images stand together."""
    found = {}
    for region in REGIONS:
        within = [[it for it in spans if region_of(it[0]) == region] for spans in images]
        numbers = tuple(at for at, spans in enumerate(within)
                        if any(meet(spans, others) for other, others in enumerate(within) if other != at))
        if numbers:
            found.setdefault(numbers, []).append(NAMES[region])
    return [(regions, numbers) for numbers, regions in found.items()]
