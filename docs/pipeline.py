"""The passes of the compiler in the order in which they run, read from the code that calls them."""
import re

HIGH, LOW = ("stages.rt", "high"), ("low_passes.rt", "code_of")
FUNCTION = re.compile(r"^(?:pub(?:\(crate\))? )?fn (\w+)\(.*?^\{\n(.*?)^\}", re.M | re.S)
IMPORT = re.compile(r"^use (\w+)::(?:\{([^}]*)\}|(\w+));", re.M)
PASSED = re.compile(r"\bpassed\([^)]*&(\w+)\)")
CALLED = re.compile(r"\b(\w+)\(alloc\b")


def imported(text):
    """What a file imports from other crates: the crate of each name."""
    return {name.strip(): crate for crate, many, one in IMPORT.findall(text) for name in (many or one).split(",") if name.strip()}


def high(text):
    """The passes over the high form: each names a struct, or a variable that holds one."""
    body = dict(FUNCTION.findall(text))[HIGH[1]]
    held = dict(re.findall(r"let (\w+) = (\w+) \{", body))
    return [held.get(name, name) for name in PASSED.findall(body)]


def low(text, name=LOW[1]):
    """The calls of the low passes: those of functions of the file itself in their place."""
    bodies = dict(FUNCTION.findall(text))
    return [it for called in CALLED.findall(bodies[name]) for it in (low(text, called) if called in bodies else [called])]


def passes(crate):
    """The pairs of a crate and what is called of it, in the order in which they run."""
    found = []
    for (file, _), calls in ((HIGH, high), (LOW, low)):
        text = (crate.folder / "src" / file).read_text()
        crates = imported(text)
        found += [(crates[it], it) for it in calls(text)]
    return found
