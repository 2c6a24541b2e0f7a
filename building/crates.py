"""The crates of the repository: what crates.txt says of each, the files that it is made of, and a digest of both."""
import hashlib
import os
from pathlib import Path

ROOT = Path(__file__).resolve().parent.parent
PROGRAM = "wcc"
PARTS = ("src", "specs", "proofs")
READ = (b".rt", b".antt")


class Crates:
    """The crates of a checkout. What is read of a file is read once: a later change shows in another Crates."""

    def __init__(self, root: Path = ROOT) -> None:
        lines = [line.partition("#")[0] for line in (root / "crates.txt").read_text().splitlines()]
        rows = {line.partition(":")[0].split()[0]: line for line in lines if line.strip()}
        self.root, self.rows = root, {name: " ".join(line.split()) for name, line in rows.items()}
        self.named = {name: line.partition(":")[2].replace(",", " ").split() for name, line in rows.items()}
        self.contents, self.digests = {}, {}

    def folder(self, name: str) -> Path:
        return self.root / "crates" / name

    def libraries(self, name: str) -> list[str]:
        """The libraries of the repository that a crate names."""
        return [it for it in self.named[name] if it in self.rows]

    def of_toolchain(self, name: str) -> list[str]:
        """The libraries of the toolchain that it may use."""
        return ["std", *(it for it in self.named[name] if it not in self.rows)]

    def up_to(self, top: str) -> list[str]:
        """A crate and the libraries below it, each behind those that it names."""
        found = {}

        def visit(name: str) -> None:
            if name not in found:
                for it in self.libraries(name):
                    visit(it)
                found[name] = None

        visit(top)
        return [*found]

    def files(self, name: str) -> dict[bytes, bytes]:
        """The paths of the files that a build reads, within the crate's folder, and what they hold."""
        if name not in self.contents:
            folder = os.fsencode(self.folder(name))
            walked = [it for part in PARTS for it in os.walk(os.path.join(folder, part.encode()))]
            paths = sorted(os.path.join(at, file) for at, _, files in walked for file in files if file.endswith(READ))
            self.contents[name] = {path[len(folder) + 1:]: Path(os.fsdecode(path)).read_bytes() for path in paths}
        return self.contents[name]

    def lines(self, name: str) -> int:
        """How many lines of code it has, by which its proof is weighed."""
        return sum(data.count(b"\n") for path, data in self.files(name).items() if path.endswith(b".rt"))

    def own_digest(self, name: str) -> str:
        """Of its line and its files."""
        whole = hashlib.sha256(f"{self.rows[name]}\n".encode())
        for path, data in self.files(name).items():
            whole.update(b"%s\0%d\0%s" % (path, len(data), data))
        return whole.hexdigest()

    def digest(self, name: str) -> str:
        """Of all that it is made of: its own and the digests of the libraries that it names.

        It's the same wherever the checkout lies and whenever its files were written, and no other crate has a part in it.
        """
        if name not in self.digests:
            parts = [self.own_digest(name), *map(self.digest, self.libraries(name))]
            self.digests[name] = hashlib.sha256("\n".join(parts).encode()).hexdigest()
        return self.digests[name]

    def sources(self, top: str) -> list[bytes]:
        """The files and folders, as bytes and from the root on, that hold a crate and those below it: what comes or goes changes its folder."""
        root, found = os.fsencode(self.root), [b"crates.txt"]
        for name in self.up_to(top):
            folder = os.fsencode(self.folder(name))
            walked = [at for part in PARTS for at, _, _ in os.walk(os.path.join(folder, part.encode()))]
            found += [it[len(root) + 1:] for it in (*walked, *(os.path.join(folder, path) for path in self.files(name)))]
        return found

    def looked_at(self, top: str) -> list[bytes]:
        """Those by whose times each change of a crate or of one below it shows: a part that is lacking would come in the crate's folder."""
        lacking = [name for name in self.up_to(top) if not all((self.folder(name) / part).is_dir() for part in PARTS)]
        return [*self.sources(top), *(os.fsencode(os.path.join("crates", name)) for name in lacking)]

    def last_change(self, names: list[bytes]) -> float:
        """When one of such files and folders was changed here, whatever time it carries."""
        return max(os.stat(os.path.join(os.fsencode(self.root), it)).st_ctime for it in names)

    def is_as_in(self, other: "Crates", name: str) -> bool:
        """Whether a crate is what it was when another reading of the checkout was made."""
        return name in self.rows and self.own_digest(name) == other.own_digest(name)


def stated(identity: str, digest: str) -> str:
    """What stands beside a thing that is built: the toolchain that built it, and the digest of what it is made of."""
    return f"{identity}\n{digest}\n"


def text_of(path: Path) -> str:
    """What a file holds, or nothing where it cannot be read."""
    try:
        return path.read_text()
    except (OSError, ValueError):
        return ""
