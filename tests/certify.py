#!/usr/bin/env python3
"""Finds and checks certificates without wcc, from what docs/CHECKING.md, docs/FORMATS.md and docs/MACHINE.md say.

    certify.py find IMAGE CLAIMS [VERSION [STALL]]    writes the report of the image with these claims
    certify.py check IMAGE REPORT [STALL]             prints what `wcc check` must print, and ends with its status
    certify.py report REPORT                          prints what `wcc report` must print, and ends with its status

CLAIMS has lines as in a report, without multipliers and without the numbers of shares: `copy`, `exit`, `never L K A`,
`region`, `loop L K MIN MAX H J`, `fact SUM OP SUM` and `share NAME A B`, in any order.
"""
import sys
from pathlib import Path

import machine  # finds simulator/
from certificates import finding, rows
from simulator import reports
from simulator.costs import DEFAULT
from simulator.images import BadImage

DONE, REFUSED, NO = 0, 1, 7


def read_claims(text):
    report = reports.Report()
    for line in filter(None, text.splitlines()):
        word, *rest = line.split(" ")
        put_claim(report, word, rest)
    report.exits.sort()
    report.nevers.sort(key=lambda it: it[2])
    report.regions.sort()
    report.loops.sort(key=lambda it: it[4])
    report.shares.sort(key=lambda it: it[1])
    return report


def put_claim(report, word, rest):
    def address(text):
        return int(text, 16)

    match word, rest:
        case "copy", (name, *places):
            report.copies.append((name, sorted(map(address, places))))
        case "exit", (at,):
            report.exits.append(address(at))
        case "never", (source, factor, at):
            report.nevers.append((int(source), int(factor), address(at)))
        case "region", (first, end, letters):
            report.regions.append((address(first), address(end), letters))
        case "loop", (*numbers, header, back):
            report.loops.append((*map(int, numbers), address(header), address(back)))
        case "share", (name, first, end):
            report.shares.append((None if name == "-" else name, address(first), address(end), 0))
        case "fact", rest:
            sign = next(it for it in ("<=", ">=", "=") if it in rest)
            at = rest.index(sign)
            sides = (reports.sum_of(" ".join(it).encode()) for it in (rest[:at], rest[at + 1:]))
            left, right = (sorted(it, key=lambda term: term[1]) for it in sides)
            report.facts.append((left, sign, right))
        case _:
            raise SystemExit(f"no claim: {word} {' '.join(rest)}")


def find(image, claims, version="1", stall="0"):
    report = read_claims(Path(claims).read_text())
    report.version = int(version)
    finding.certify(*machine.read_image(Path(image).read_bytes()), report, DEFAULT.with_stall(int(stall)))
    sys.stdout.write(reports.write(report).decode())
    return DONE


def check_line(image, report, stall=0):
    """The line and the status of `wcc check` on these bytes."""
    try:
        entry, segments = machine.read_image(image)
        return f"yes {rows.check(entry, segments, reports.read(report), DEFAULT.with_stall(stall))}", DONE
    except (BadImage, reports.ReportFault, rows.No) as fault:
        return f"no {fault}", NO


def check(image, report, stall="0"):
    line, status = check_line(Path(image).read_bytes(), Path(report).read_bytes(), int(stall))
    print(line)
    return status


def report_lines(data):
    """The lines and the status of `wcc report` on these bytes."""
    try:
        report = reports.read(data)
    except reports.ReportFault as fault:
        return f"refused report-{fault.cause} at {fault.line}\n", REFUSED
    lines = [f"cycles {report.cycles} {report.kind[0]}", f"loops {len(report.loops)} facts {len(report.facts)}"]
    lines += [f"share {name or '-'} {part} over {report.unit}" for name, _, _, part in report.shares]
    return "".join(f"{it}\n" for it in lines), DONE


def tell(report):
    lines, status = report_lines(Path(report).read_bytes())
    sys.stdout.write(lines)
    return status


def main(words):
    calls = {"find": (find, (2, 3, 4)), "check": (check, (2, 3)), "report": (tell, (1,))}
    call, counts = calls.get(words[0] if words else "", (None, ()))
    if len(words) - 1 not in counts:
        sys.exit(__doc__)
    return call(*words[1:])


if __name__ == "__main__":
    sys.exit(main(sys.argv[1:]))
