"""What nothing uses, read off the text: names that a file imports and doesn't say again, definitions that none names, lists of modules without one.

A name counts as used where the file says it outside its imports and comments: as a word of its own, and an operator by its signs.
A trait of Rust is used where a method of it is called, so that its name needn't be said.
"""
import re
from collections import Counter

RUST_IMPORT = re.compile(r"^[ \t]*(?P<ghost>ghost )?use (?P<tree>[^;]*);", re.M)
ANTT_IMPORT = re.compile(r"^use (?P<tree>[^\n{]*(?:\{[^}]*\})?[^\n]*)$", re.M)
REEXPORT = re.compile(r"^[ \t]*(?:ghost )?pub (?:ghost )?use [^;\n{]*(?:\{[^}]*\})?[^;\n]*", re.M)
COMMENT = {".rt": re.compile(r"//[^\n]*"), ".antt": re.compile(r"--[^\n]*")}
WORD = re.compile(r"[^\s(){}\[\],;.:`|&\"]+")
NAME = re.compile(r"\w+")
# Traits of the standard library whose methods are called and whose names needn't be said.
TRAITS = {"Read", "Seek", "Write"}
# A line that begins with a name defines it, or is a line of its type or its value.
HEAD = re.compile(r"(?:(?:pub|abbrev|unfoldable|opaque|record|data|ruleset) )*([^\s(){}\[\],;.:`|&\"]+)")


def listed(text):
    """The parts of a list of imports, at whose commas no braces are open."""
    depth, part = 0, ""
    for sign in text:
        depth += (sign == "{") - (sign == "}")
        if sign == "," and not depth:
            yield part.strip()
            part = ""
        else:
            part += sign
    if part.strip():
        yield part.strip()


def named(tree):
    """The names that an import gives to its file."""
    for part in listed(tree):
        path, separator, inner = part.rstrip().partition("{")
        if separator:
            yield from (path.strip(".: ").split("::")[-1] if it == "self" else it for it in named(inner.rstrip()[:-1]))
        elif " as " in part:
            yield part.split(" as ")[-1].strip()
        else:
            yield re.split(r"::|\.(?=[^.])", part)[-1]


def says(text, words, name):
    signs = [it for it in name.split("◌") if it]
    if "◌" in name or name == "[]":
        return all(it in text for it in signs)
    return name in words or bool(re.search(rf"(?<![\w'-]){re.escape(name)}(?![\w'-])", text))


def body(file, text):
    """What a file says beside its imports and comments."""
    imports = RUST_IMPORT if file.suffix == ".rt" else ANTT_IMPORT
    return COMMENT[file.suffix].sub("", REEXPORT.sub("", imports.sub("", text)))


def imports(file, text, traits=frozenset()):
    """Each import of the file with the names of it that the file doesn't say."""
    said = body(file, text)
    words = set(WORD.findall(said))
    for it in (RUST_IMPORT if file.suffix == ".rt" else ANTT_IMPORT).finditer(text):
        plain = file.suffix == ".rt" and not it["ghost"]
        lacking = [name for name in named(it["tree"]) if not says(said, words, name) and name not in {"_", "*"}]
        lacking = [name for name in lacking if not (plain and name in traits | TRAITS)]
        if lacking:
            yield it, lacking


def traits(texts):
    return {name for text in texts.values() for name in re.findall(r"\btrait (\w+)", text)}


def counted(texts):
    """How often each word stands in all files, beside imports and comments."""
    said = Counter()
    for file, text in texts.items():
        said.update((NAME if file.suffix == ".rt" else WORD).findall(body(file, text)))
    return said


def definitions(texts, said):
    """Each definition of a file of specs that nothing names but itself."""
    own, home = Counter(), {}
    for file, text in texts.items():
        if file.suffix == ".antt" and "specs" in file.parts:
            for part in re.split(r"\n(?=\S)", body(file, text)):
                if (head := HEAD.match(part)) and "◌" not in head[1]:
                    home.setdefault(head[1], file)
                    own[head[1]] += WORD.findall(part).count(head[1])
    yield from ((file, name) for name, file in home.items() if said[name] <= own[name])


def functions(texts, said):
    """Each function that nothing names, beside `main`, tests, and laws: these answer nothing and change nothing, and stand for what their contracts say."""
    for file, text in texts.items():
        if file.suffix == ".rt":
            for it in re.finditer(r"(#\[test\]\s*)?^[ \t]*(?:pub(?:\([^)]*\))? )?fn (\w+)([^{;]*)", text, re.M):
                head = it[3].split("ensures")[0].split("requires")[0]
                is_law = "->" not in head and "&mut" not in head
                if said[it[2]] == 1 and it[2] != "main" and not it[1] and not is_law:
                    yield file, it[2]


def modules(files):
    """Each list of modules that lists none."""
    yield from (file for file in files if file.name == "Lib.antt" and not file.read_text().strip())
