"""Crates of this repository, proved in a copy by `rt ci`: what tools/prove, tests/each_change and tools/wrong_programs share.

`rt ci` with no names judges all that crates.txt lists. So the copy lists the crates that are wanted and those below them, and no other,
and has no must-fail edits: those are the gate's, in the repository itself. rt takes from what it keeps on this machine each crate that
it has passed before, from whichever copy, and proves the others from nothing, as many at a time as there are processors. What it built
stands in the copy then: the programs in out/, and the libraries, over which the kit's prover and compiler can be asked for more."""
import contextlib
import hashlib
import os
import re
import shutil
import signal
import subprocess
import sys
import tempfile

ROOT = os.path.dirname(os.path.dirname(os.path.abspath(__file__)))
PARTS = ("src", "specs", "proofs")


def read(path):
    with open(path, "rb") as file:
        return file.read()


@contextlib.contextmanager
def room():
    """A folder for a copy among the temporary files, which is gone when the run ends; so are those of runs that were killed."""
    for name in os.listdir(tempfile.gettempdir()):
        if (found := re.match(r"lambspool-(\d+)-", name)) and not os.path.exists(f"/proc/{found[1]}"):
            shutil.rmtree(os.path.join(tempfile.gettempdir(), name), ignore_errors=True)
    signal.signal(signal.SIGTERM, lambda *_: sys.exit(143))
    with tempfile.TemporaryDirectory(prefix=f"lambspool-{os.getpid()}-", ignore_cleanup_errors=True) as folder:
        yield folder


def told(word):
    return subprocess.run(["rt", word], stdout=subprocess.PIPE, text=True, check=True).stdout.strip()


def kit():
    """The folder of the kit."""
    return os.path.dirname(told("doc"))


def kit_line():
    """The line that names the kit."""
    return told("version")


class Crates:
    """The lines of a crates.txt: what each crate stands on, and which are static libraries."""

    def __init__(self, root=ROOT):
        self.root, self.line, self.uses = root, {}, {}
        for line in read(os.path.join(root, "crates.txt")).decode().split("\n"):
            line = line.partition("#")[0].strip()
            if line:
                name = re.match(r"\w+", line)[0]
                self.line[name], self.uses[name] = line, re.split(r"[\s,]+", line.partition(":")[2].strip())

    def is_static(self, name):
        return bool(re.match(r"\w+ +staticlib\b", self.line[name]))

    def is_program(self, name):
        return os.path.exists(self.at(name, "src", "main.rt"))

    def at(self, name, *parts):
        return os.path.join(self.root, "crates", name, *parts)

    def below(self, *names):
        """The repository's crates that these stand on, and these, each after those that it stands on."""
        found = []
        for name in names:
            found += [one for one in [*self.below(*(used for used in self.uses[name] if used in self.line)), name] if one not in found]
        return found

    def files(self, name):
        """The files that a check of the crate reads."""
        return sorted(os.path.join(at, file) for part in PARTS for at, _, files in os.walk(self.at(name, part)) for file in files)

    def sum(self, name, line):
        """A sum of all that a proof of the crate rests on: the kit, by its line, and every crate below."""
        total = hashlib.sha256(line.encode())
        handles = os.path.join(self.root, "HANDLES")
        total.update(read(handles) if os.path.exists(handles) else b"")
        for one in self.below(name):
            total.update(repr(self.line[one]).encode())
            for path in self.files(one):
                total.update(repr((os.path.relpath(path, self.root), read(path))).encode())
        return total.hexdigest()


def copied(crates, names, to):
    """Copies these crates and those below into the folder, which is the top of a repository then."""
    wanted = crates.below(*names)
    os.makedirs(os.path.join(to, ".git"))
    for name in wanted:
        shutil.copytree(crates.at(name), os.path.join(to, "crates", name), ignore=lambda at, _: ("out", "must-fail") if at == crates.at(name) else ())
    with open(os.path.join(to, "crates.txt"), "w", encoding="utf-8") as file:
        file.writelines(crates.line[name] + "\n" for name in wanted)
    if os.path.exists(os.path.join(crates.root, "HANDLES")):
        shutil.copy(os.path.join(crates.root, "HANDLES"), to)
    return Crates(to)


def proved(copy, log, tell=lambda count, name: None):
    """Runs `rt ci` in the copy: whether all of it passed, and the crates that did not. What rt says goes into the file `log`, and `tell`
    hears of each crate as it is done."""
    count, wrong = 0, []
    run = subprocess.Popen(["rt", "ci"], cwd=copy.root, stdin=subprocess.DEVNULL, stdout=subprocess.PIPE, stderr=subprocess.STDOUT, text=True, errors="replace")
    with open(log, "w", encoding="utf-8") as file:
        for line in run.stdout:
            file.write(line.replace(copy.root, ROOT))
            if found := re.match(r"rt: (\w+) (proved$|is kept: )", line):
                count += 1
                tell(count, found[1])
            elif found := re.match(r"rt: (\w+) NOT PROVED", line):
                wrong.append(found[1])
    return run.wait() == 0, wrong


def words(copy, name, kit):
    """What the kit's prover and compiler are told of a crate of the copy, as `rt` tells them: the libraries that stand in the copy."""
    told = ["--crate-name", name, "src/main.rt" if copy.is_program(name) else "src/lib.rt"]
    for library in ["std", *(used for used in copy.uses[name] if used and used not in copy.line)]:
        told += ["--extern", f"{library}={kit}/rlibs/{library}.rlib"]
    told += ["-L", f"dependency={kit}/rlibs"]
    for one in copy.below(name)[:-1]:
        folder = copy.at(one, "out", "rlib")
        told += ["--extern", f"{one}={folder}/{one}.rlib"] * (one in copy.uses[name]) + ["-L", f"dependency={folder}"]
    told += ["--antt-project", f"{kit}/rattle/logic/antt-project.json", "--logic-built", f"{kit}/logic_built"]
    return told + ["--crate-type", "staticlib"] * copy.is_static(name)
