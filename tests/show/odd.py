"""Files that `check` accepts and no compiler writes, large ones, and names and texts with anything in them."""
import os
import resource
import struct
import subprocess
import time
from subprocess import DEVNULL, PIPE
from xml.etree import ElementTree

from evaluation import PLAIN
from made import Made
from room import check, hold

WORDS = (0x00700513, 0x00000893, 0x00000073)  # the example of docs/FORMATS.md
SECONDS_FOR_FUNCTIONS, SECONDS_FOR_LINES = 20, 20  # of a processor


def small_report(first, more_claims=(), more_copies=()):
    """The report of the example, where its code begins at another address."""
    places = [first, first + 4, first + 8]
    lines = ["cycles 21", "kind greatest", *more_copies, f"exit {places[2]:08x}", *more_claims, "scale 1"]
    lines += [f"potential {at:08x} {number}" for at, number in zip(places, (21, 17, 13))]
    return "\n".join([*lines, "unit 1", *(f"flow {at:08x} 0 1" for at in places), "end", ""])


def small_image(headers, entry=0, table=52, behind=b""):
    """An image with the code of the example behind its program headers."""
    head = b"\x7fELF\1\1\1" + bytes(9) + struct.pack("<2H5I6H", 2, 243, 1, entry, table, 0, 0, 52, 32, len(headers), 0, 0, 0)
    return head + b"".join(struct.pack("<8I", *it) for it in headers) + struct.pack("<3I", *WORDS) + behind


def refused(room, image, report, *words, status, said):
    room.write("a.elf", image)
    room.write("a.txt", report)
    hold(room.call("check", "a.elf", "a.txt")[0] == 0, "check doesn't accept what is made")
    found = room.show("a.elf", "a.txt", *words, status=status)
    hold(said in found, f"it says {found!r}")


@check
def shares_outside_the_image(room):
    made = Made(2, 1)
    end = 4 * len(made.words)
    for first, last in ((end, end + 16), (end, 0xFFFFFFFC), (0x90000000, 0x90000010), (0x20000000, 0x20000004), (end + 1, end + 3)):
        refused(room, made.image, made.text([("odd", first, last, 0)]), status=7,
                said=f"wcc: `a.txt` can't be shown: its line `share odd {first:08x} {last:08x} ..` speaks of addresses where the image has no code.")


@check
def program_headers_within_the_header(room):
    """The one program header lies over the fields of the file's header from the twentieth byte on: its bytes are both."""
    entry = 64
    head = b"\x7fELF\1\1\1" + bytes(9) + struct.pack("<2H", 2, 243)
    fields = struct.pack("<8I", 1, entry, 20, 0, 128, 32 << 16 | 52, 1, 1)
    code = bytes(108 - 52) + struct.pack("<3I", *WORDS)
    image = (head + fields + code).ljust(64 + 128, b"\0")
    refused(room, image, small_report(entry), "--elf", "b.elf", status=1,
            said="wcc: `a.elf` gets no copy with sections: its program headers lie within the header of the file.")
    hold(not (room.here / "b.elf").exists(), "a copy is written")
    room.show("a.elf", "a.txt", "--html", "a.html")


@check
def the_header_of_the_file_is_loaded(room):
    image = small_image([(1, 0, 0, 0, 96, 96, 5, 1)], entry=84)
    refused(room, image, small_report(84), "--elf", "b.elf", status=1,
            said="wcc: `a.elf` gets no copy with sections: what is loaded of it lies within the header of the file, which changes.")


@check
def segments_without_bytes(room):
    """A segment without bytes of the file, at a place far behind its end, and an empty one anywhere."""
    headers = [(1, 148, 0, 0, 12, 12, 5, 1), (1, 0xFFFFFFF0, 0x20000000, 0, 0, 256, 6, 1), (1, 0xFFFFFFFF, 0xFFFFFFFF, 0, 0, 0, 4, 1)]
    room.write("a.elf", small_image(headers))
    room.write("a.txt", small_report(0))
    room.show("a.elf", "a.txt", "--elf", "b.elf", "--html", "a.html")
    hold(room.call("check", "b.elf", "a.txt")[1] == "yes 21 greatest\n", "the copy is another image")


@check
def claims_of_nothing(room):
    """Loops, markers and restrictions at addresses where nothing is, and many at one address."""
    claims = ["loop 1 1 0 9 00000004 0000000c 0 0", "loop 9 2 3 3 20000000 fffffffc 0 0",
              "fact 0 " + " + ".join(f"1*{at:08x}" for at in range(0, 4000, 4)) + " >= 0"]
    copies = [f"copy m{number} 00000000 00000004 fffffff0" for number in range(2000)] + ["copy none"]
    room.write("a.elf", small_image([(1, 84, 0, 0, 12, 12, 5, 1)]))
    room.write("a.txt", small_report(0, claims, copies))
    room.show("a.elf", "a.txt", "--html", "a.html", "--elf", "b.elf")
    room.show("a.elf", "a.txt")


@check
def a_function_that_calls_itself(room):
    """It is claimed never to be visited: so nothing follows of how often it comes."""
    room.write("a.elf", small_image([(1, 84, 0, 0, 24, 24, 5, 1)], behind=struct.pack("<3I", 0x000000EF, 0x00008067, 0)).replace(
        struct.pack("<3I", *WORDS), struct.pack("<3I", 0x00050663, 0x00000893, 0x00000073)))
    lines = ["version 2", "cycles 21", "kind greatest", "copy f 0000000c", "exit 00000008", "never 0 1 0000000c 30", "scale 1", "potential 00000000 21",
             "potential 00000004 17", "potential 00000008 13", "potential 0000000c 10", "potential 00000010 5", "unit 1", "flow 00000000 0 1",
             "flow 00000004 0 1", "flow 00000008 0 1", "share - 00000000 0000000c 21", "share f 0000000c 00000014 0", "end", ""]
    room.write("a.txt", "\n".join(lines))
    hold(room.call("check", "a.elf", "a.txt") == (0, "yes 21 greatest\n"), f"check says {room.call('check', 'a.elf', 'a.txt')}")
    said = room.show("a.elf", "a.txt", "--html", "a.html")
    hold("f" in said, "the function isn't shown")


# Time

def seconds_of(work):
    """What a call takes of a processor, with all that it starts."""
    before = resource.getrusage(resource.RUSAGE_CHILDREN)
    work()
    after = resource.getrusage(resource.RUSAGE_CHILDREN)
    return after.ru_utime + after.ru_stime - before.ru_utime - before.ru_stime


@check
def many_functions(room):
    """Time grows as the files do, and no faster."""
    taken = []
    for count in (250, 1000):
        made = Made(count, 4)
        room.write("a.elf", made.image)
        room.write("a.txt", made.report)
        taken.append(seconds_of(lambda: room.show("a.elf", "a.txt", "--html", "a.html", "--elf", "b.elf")))
    hold(taken[1] < 8 * taken[0] and taken[1] < SECONDS_FOR_FUNCTIONS, f"250 functions take {taken[0]:.1f} s, and 1000 take {taken[1]:.1f} s")


@check
def long_sources(room):
    """A source of nearly a mebibyte, most of it comments and loops in each other."""
    nest = "".join(f"for (i{at} = 0; i{at} < 1; i{at}++) {{\n" for at in range(30))
    variables = ", ".join(f"i{at}" for at in range(30))
    pad = "/* what stands in a source beside its code, as it does in those of people */\n" * 60
    body = "".join(f"int f{at}(int x)\n{{\n    int {variables};\n{pad}{nest}{pad}x++;\n{'}' * 30}\n    return x;\n}}\n" for at in range(40))
    calls = "".join(f"    s = f{at}(s);\n" for at in range(40))
    source = f"{body}int main(void)\n{{\n    int s = 0;\n{calls}    return s & 127;\n}}\n"
    room.make(source[:1 << 20], "--derive")
    taken = seconds_of(lambda: room.show("a.elf", "a.txt", "--source", "a.c", "--html", "a.html"))
    hold(taken < SECONDS_FOR_LINES, f"{len(source)} bytes of source take {taken:.1f} s")


# Names and texts

@check
def names_with_anything(room):
    room.make("int main(void)\n{\n    /* </table><script>alert(1)</script> \x01 \x1b[31m & \xff */\n    return 0;\n}\n".encode("latin-1"))
    names = ["a\nb.elf", "<b>&amp;'\"", "\x1b[31mred", " ", "--", b"\xff\xfe.elf"]
    for name in names:
        before = (room.here / "a.elf").read_bytes()
        raw = os.fsencode(name) if isinstance(name, str) else name
        with open(os.path.join(os.fsencode(room.here), raw), "wb") as file:
            file.write(before)
        ran = subprocess.run([room.wcc, "show", "--html=a.html", "--source", "a.c", "--", raw, "a.txt"], cwd=room.here, stdin=DEVNULL, stdout=PIPE,
                             stderr=PIPE, env=PLAIN)
        hold(ran.returncode == 0 and not ran.stderr, f"of {name!r} it ends with {ran.returncode}, {ran.stdout!r} and {ran.stderr!r}")
        page = room.read("a.html")
        ElementTree.fromstring(page)
        hold(b"\x1b" not in page and b"<script>alert" not in page and b"<b>&amp;" not in page, f"the page of {name!r} has signs of the file")
        ran = subprocess.run([room.wcc, "show", "--", raw + b".none", "a.txt"], cwd=room.here, stdin=DEVNULL, stdout=PIPE, stderr=PIPE, env=PLAIN)
        hold(ran.returncode == 4 and b"\x1b" not in ran.stdout and ran.stdout.count(b"\n") == 1, f"of {name!r} it says {ran.stdout!r}")


@check
def closed_streams(room):
    room.make("int main(void) { return 0; }\n")
    for words in ("a.elf a.txt", "a.elf", "none a.txt", "--help", "a.elf a.txt --html b.html"):
        for closed in (">&-", ">&- 2>&-", "<&- >&- 2>&-"):
            ran = subprocess.run(["sh", "-c", f'"$0" show {words} {closed}', room.wcc], cwd=room.here, stdout=PIPE, stderr=PIPE, env=PLAIN)
            hold(ran.returncode == 5 and not ran.stderr, f"show {words} {closed} ends with {ran.returncode} and says {ran.stderr!r}")
    hold(room.call("show", "a.elf", "a.txt")[0] == 0, "it can't be shown")


@check
def devices_and_pipes(room):
    """No device without an end is read to its end, and a pipe is read."""
    room.make("int main(void) { return 0; }\n")
    hold(room.call("show", "/dev/zero", "a.txt")[0] == 3, "an endless image")
    hold(room.call("show", "a.elf", "a.txt", "--source", "/dev/zero")[0] == 3, "an endless source")
    ran = subprocess.run(["bash", "-c", '"$0" show <(cat a.elf) <(cat a.txt)', room.wcc], cwd=room.here, stdout=PIPE, stderr=PIPE, env=PLAIN)
    hold(ran.returncode == 0 and ran.stdout == room.show("a.elf", "a.txt").encode(), f"of pipes it says {ran.stdout!r}")


@check
def what_a_stop_leaves(room):
    """A page is whole, or as it was, whenever the call is ended."""
    made = Made(60, 2)
    room.write("a.elf", made.image)
    room.write("a.txt", made.report)
    room.show("a.elf", "a.txt", "--html", "a.html")
    whole, before = room.read("a.html"), b"as it was"
    for after in (0.1, 0.2, 0.3, 0.4):
        room.write("a.html", before)
        ran = subprocess.Popen([room.wcc, "show", "a.elf", "a.txt", "--html", "a.html"], cwd=room.here, stdin=DEVNULL, stdout=DEVNULL, stderr=PIPE, env=PLAIN)
        time.sleep(after)
        ran.terminate()
        said = ran.communicate()[1]
        hold(not said and ran.returncode in (0, -15, 143) and room.read("a.html") in (before, whole), f"after {after} s it says {said!r}")
    left = {it.name for it in room.here.iterdir()} - {"a.elf", "a.txt", "a.html"}
    hold(not left, f"it leaves {left}")
