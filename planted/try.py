"""Plants bugs in a crate, one at a time, and tries whether the check still passes: python3 planted/try.py CRATE [WORD ..]

planted/CRATE.txt has the bugs, each a line of words, a file of the crate, a text that stands once in it, and what is put in its place. Only those are
tried whose words have one of the WORDs in them, if any are given. Nothing here is changed: the bugs go into a copy. A row says what refused each bug.
"""
import pathlib
import shutil
import subprocess
import sys
import tempfile

ROOT = pathlib.Path(__file__).resolve().parent.parent


def bugs(crate):
    for part in (ROOT / "planted" / f"{crate}.txt").read_text().split("\n\n"):
        words, *rest = part.strip("\n").split("\n")
        yield words, *(line.split(": ", 1)[1] for line in rest)


def refusal(output):
    """What the check said first: the place and the goal, or the goal that no search closes."""
    for line in output.splitlines():
        if line.startswith("so far: "):
            continue
        if ": error: " in line:
            place, said = line.split(": error: ", 1)
            return f"{place.split('/proofs/')[-1]}: {said[:160]}"
        if line.startswith("note: ") and " not proved that " in line:
            return line.removeprefix("note: ")[:200]
    return "the check failed"


def main(crate, words):
    with tempfile.TemporaryDirectory() as folder:
        copy = pathlib.Path(folder) / "repository"
        shutil.copytree(ROOT, copy, ignore=shutil.ignore_patterns(".git", "must-fail"))
        passed = 0
        for bug, file, old, new in bugs(crate):
            if words and not any(word in bug for word in words):
                continue
            path = copy / "crates" / crate / file
            source = path.read_text()
            if source.count(old) != 1:
                sys.exit(f"{bug}: `{old}` stands {source.count(old)} times in {file}")
            path.write_text(source.replace(old, new))
            run = subprocess.run(["rt", "check"], cwd=copy / "crates" / crate, capture_output=True, text=True)
            path.write_text(source)
            proved = run.returncode == 0
            passed += proved
            print(f"{'STILL PROVED' if proved else 'refused'} | {bug} | {'' if proved else refusal(run.stdout + run.stderr)}", flush=True)
    sys.exit(1 if passed else 0)


main(sys.argv[1], sys.argv[2:])
