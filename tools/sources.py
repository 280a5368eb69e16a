"""The files of the repository, and the names that its sources declare."""
import re
import shutil
import subprocess
from collections import defaultdict
from pathlib import PurePosixPath

CODE = re.compile(r"\b(?:fn|struct|enum|trait|const|static|type|mod)\s+(\w+)")
EXPORT = re.compile(r"\bpub use [^;]+;")
OTHER_NAME = re.compile(r"\bas\s+(\w+)")
CLAUSE = re.compile(r"\b(?:ensures|requires|invariant)\s+(\w+)\s*\{")
MEMBER = re.compile(r"^\s+(?:pub\s+)?(\w+)(?:\s*[:({,]|\s*$)", re.M)
DEFINITION = re.compile(r"^\s*(?:(?:pub|abbrev|data|record|mutual|postulate)\s+)*([\w'◌]+)(?:\s+[({].*)?\s*:", re.M)
FUNCTION = re.compile(r"\bfn\s+(\w+)")
RECORD = re.compile(r"^(?:pub )?record (\w+)", re.M)
ROWS = re.compile(r"pub enum Pc \{(.*?)^\}", re.M | re.S)
ROW = re.compile(r"^\s+(\w+),", re.M)
LIBRARY = ("library/include/", "library/interpose/", "library/rust/src/")
COMMENT = re.compile(r"/\*.*?\*/|//[^\n]*", re.S)


class Sources:
    def __init__(self, top):
        self.top = top
        self.files = sorted(listed(top))
        self.endings = {ending for path in self.files for ending in endings_of(path)}
        self.crates = re.findall(r"^(\w+)[^:#]*:", (top / "crates.txt").read_text(), re.M)
        self.text = {path: (top / path).read_text() for path in self.files if path.endswith((".rt", ".antt"))}
        self.names = {path: set(names_in(path, text)) for path, text in self.text.items()}
        self.declared = {name for names in self.names.values() for name in names} | self.of_library()
        self.clauses = defaultdict(set)
        for path, text in self.text.items():
            for owner, clauses in clauses_in(path, text):
                self.clauses[owner] |= set(clauses)
        self.rows = ROW.findall(ROWS.search(self.text["crates/lk_rows/src/parts.rt"])[1])

    def documents(self):
        return [path for path in self.files if path.endswith(".md")]

    def of_library(self):
        """The words of the library's headers, of its interposer and of its crate for Rust."""
        texts = [(self.top / path).read_text() for path in self.files if path.startswith(LIBRARY)]
        return {word for text in texts for word in re.findall(r"\w+", COMMENT.sub("", text))}

    def lines_of(self, file):
        """Those of a file of the repository, or none."""
        return (self.top / file).read_text().splitlines() if file in self.files else []

    def declared_in(self, crate):
        inside = f"crates/{crate}/"
        return {name for path, names in self.names.items() if path.startswith(inside) for name in names}

    def mentions(self, word):
        """Whether a script or a constant has this name."""
        paths = [path for path in self.files if not path.endswith(".md")]
        return any(re.search(rf"\b{word}\b", (self.top / path).read_text(errors="replace")) for path in paths)

    def has_beside(self, name, folder):
        """Whether a script or program in the folder of a document has a function of this name."""
        beside = [path for path in self.files if str(PurePosixPath(path).parent) == folder and path.endswith((".c", ".h", ".py"))]
        return any(re.search(rf"\b{name}\(", (self.top / path).read_text()) for path in beside)

    def has_file(self, name):
        """Whether a file or folder has this name, with or without its suffix: from the top, or as the end of its path."""
        name = name.rstrip("/")
        if "*" in name:
            pattern = re.compile(re.escape(name).replace(r"\*", "[^/]*"))
            return any(pattern.fullmatch(ending) for ending in self.endings)
        return name in self.endings


def endings_of(path):
    """Each end of a path from a folder's or the file's name on, and each front of that up to a folder or a suffix."""
    for start in [0, *(at + 1 for at, letter in enumerate(path) if letter == "/")]:
        tail = path[start:]
        yield tail
        yield from (tail[:at] for at, letter in enumerate(tail) if letter in "/.")


def listed(top):
    """The files under version control, and those that may come under it; without git all but what is made."""
    if shutil.which("git"):
        command = ["git", "ls-files", "--cached", "--others", "--exclude-standard"]
        run = subprocess.run(command, cwd=top, capture_output=True, text=True)
        if run.returncode == 0:
            return {path for path in run.stdout.splitlines() if (top / path).is_file()}
    paths = (path.relative_to(top) for path in top.rglob("*") if path.is_file())
    return {str(path) for path in paths if not {"out", ".git", "__pycache__", "target"} & set(path.parts)}


def names_in(path, text):
    if path.endswith(".antt"):
        text = re.sub(r"--.*", "", text)
        return DEFINITION.findall(text)
    text = re.sub(r"//.*", "", text)
    others = [name for export in EXPORT.findall(text) for name in OTHER_NAME.findall(export)]
    return CODE.findall(text) + others + CLAUSE.findall(text) + MEMBER.findall(text)



def clauses_in(path, text):
    """The clauses of each function, and the fields of each record."""
    owner, clause = (RECORD, DEFINITION) if path.endswith(".antt") else (FUNCTION, CLAUSE)
    _, *pieces = owner.split(text)
    for name, body in zip(pieces[::2], pieces[1::2]):
        yield name, clause.findall(body)
