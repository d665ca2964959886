"""A crate of this repository with a change in it, given to the prover in a room of its own: a copy of the crates outside the repository, in which that
crate is changed and all else stands as it is. The libraries below come built from the repository, and rt check in the room begins with what it kept there. A
change is checked over a copy of what the check of the crate as it stands keeps, so that only what it reaches is proved again."""
import os
import pathlib
import re
import shutil
import subprocess
import sys
import tempfile
from concurrent.futures import ThreadPoolExecutor

TOP = pathlib.Path(__file__).resolve().parent.parent


class Bad(Exception):
    """A change of which the prover can say nothing."""


def link(one, other):
    """Gives a file of a library or a proof a second name, or copies it: rt replaces such files, and never writes into them."""
    try:
        os.link(one, other)
    except OSError:
        shutil.copy2(one, other)


def link_proof(one, other):
    """As link, for what a check keeps: its proofs end in .oantt, and the rest is copied."""
    (link if one.endswith(".oantt") else shutil.copy2)(one, other)


class Room:
    """A crate's room, a context: it is made, the crate proved in it as it stands, and it is gone afterwards."""

    def __init__(self, name):
        self.name = name

    def __enter__(self):
        self.folder = tempfile.TemporaryDirectory()
        self.room, self.kept = pathlib.Path(self.folder.name, "room"), pathlib.Path(self.folder.name, "kept")
        self.crate = self.room / "crates" / self.name
        self.work = self.crate / "out" / "incremental"
        # The top of a repository, to rt.
        (self.room / ".git").mkdir(parents=True)
        for file in ("crates.txt", "HANDLES"):
            if (TOP / file).is_file():
                shutil.copy(TOP / file, self.room)
        for crate in (TOP / "crates").iterdir():
            to = self.room / "crates" / crate.name
            shutil.copytree(crate, to, ignore=lambda at, names, top=str(crate): {"must-fail", "data", "out"} & {*names} if at == top else set())
            if (crate / "out" / "rlib").is_dir():
                shutil.copytree(crate / "out" / "rlib", to / "out" / "rlib", copy_function=link)
        log = self.check()
        if "\nlogic=proved " not in log:
            self.folder.cleanup()
            raise Bad(f"{self.name} is not proved as it stands:\n{log[-2000:]}")
        self.work.rename(self.kept)
        return self

    def __exit__(self, *_):
        self.folder.cleanup()

    def lay(self):
        """The crate as it stands, anew."""
        for part in ("src", "specs", "proofs"):
            shutil.rmtree(self.crate / part, ignore_errors=True)
            if (TOP / "crates" / self.name / part).is_dir():
                shutil.copytree(TOP / "crates" / self.name / part, self.crate / part)

    def check(self):
        run = subprocess.run(["rt", "check", "--jobs", "1"], cwd=self.crate, stdin=subprocess.DEVNULL, stdout=subprocess.PIPE, stderr=subprocess.STDOUT, text=True)
        return "\n" + run.stdout

    def refused(self, replacements):
        """The functions refused with some texts replaced; None where the crate is still proved."""
        self.lay()
        for file, old, new in replacements:
            text = (self.crate / file).read_text()
            if text.count(old) != 1:
                raise Bad(f"a text stands {text.count(old)} times in {file}: {old}")
            (self.crate / file).write_text(text.replace(old, new))
        shutil.rmtree(self.work, ignore_errors=True)
        shutil.copytree(self.kept, self.work, copy_function=link_proof)
        log = self.check()
        if "\nlogic=proved " in log:
            return None
        if "\nlogic=not-proved" not in log and "\nrattle: no verdict" not in log:
            raise Bad("it did not reach the prover:\n" + log[-2000:])
        return self.functions(log)

    def functions(self, log):
        """The functions that the prover refuses for themselves, and not for one that they call, also where it does so by a limit of its own, as rt ci counts them."""
        return self.first(set(re.findall(rf"^fn {self.name}::(\S+): (?:not proved(?!; it calls )|no proof(?!: it calls )|could not tell)", log, re.M)))

    def first(self, functions):
        """Of some functions those that reach none of the others by calls: a function without a proof of its own is said to have none where a callee has none."""
        text = "\n".join(file.read_text() for file in (self.crate / "src").rglob("*.rt"))
        calls = {}
        for name, body in re.findall(r"\bfn (\w+)(.*?)(?=\n *(?:pub )?(?:extern \"C\" )?fn |\Z)", text, re.S):
            calls.setdefault(name, set()).update(re.findall(r"\b(\w+)\(", body))

        def reached(names, seen):
            for name in names & calls.keys() - seen:
                seen |= reached(calls[name], seen | {name})
            return seen

        last = {function: function.split("::")[-1] for function in functions}
        return {f for f in functions if not reached(calls.get(last[f], set()), set()) & set(last.values()) - {last[f]}}


def proved(names, every):
    """Whether the crates are proved as they stand; it leaves their libraries built, and what their checks keep."""
    if every:
        runs = [(TOP, ["rt", "all", "check"])]
    else:
        runs = [(TOP / "crates" / name, ["rt", "check"]) for name in names]
    quiet = {"stdin": subprocess.DEVNULL, "stdout": subprocess.DEVNULL, "stderr": subprocess.DEVNULL}
    return all(subprocess.run(words, cwd=folder, **quiet).returncode == 0 for folder, words in runs)


def each_crate(names, every, work):
    """What work says of each crate, as many at a time as there are processors; every crate is proved first."""
    if not proved(names, every):
        sys.exit("the crates are not proved before any change: run 'rt all check' to see why")
    with ThreadPoolExecutor(int(os.environ.get("RT_JOBS", os.cpu_count() or 1))) as pool:
        yield from pool.map(work, names)
