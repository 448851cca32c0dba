"""Plants the bugs of planted.txt one at a time and runs the check of their crate.

A bug is three lines and a blank one: the file below crates/ and what the bug does, a line that begins '- ' with the text
that stands once in that file, and a line that begins '+ ' with the text in its place.
"""
import pathlib
import shutil
import subprocess
import sys
import tempfile
import time

HERE = pathlib.Path(__file__).resolve().parent
HOME = HERE.parent


def bugs(word):
    for block in (HERE / "planted.txt").read_text(encoding="utf-8").split("\n\n"):
        lines = [line for line in block.split("\n") if line and not line.startswith("#")]
        if not lines:
            continue
        head, old, new = lines
        file, title = head.split(" ", 1)
        if word in head:
            yield file, title, old[2:], new[2:]


def check(copy, crate):
    """The verdict and the first lines that say why."""
    run = subprocess.run(["rt", "check"], cwd=copy / "crates" / crate, capture_output=True, text=True)
    said = (run.stdout + run.stderr).split("\n")
    why = [line for line in said if any(word in line for word in ("it is not proved", "found no proof", ": error"))]
    return run.returncode == 0, (why or [""])[0].replace(str(copy) + "/", "")[:160]


def main():
    word = sys.argv[1] if len(sys.argv) > 1 else ""
    passed = planted = 0
    with tempfile.TemporaryDirectory() as folder:
        copy = pathlib.Path(folder) / "copy"
        shutil.copytree(HOME, copy, ignore=shutil.ignore_patterns(".git", "out"))
        for file, title, old, new in bugs(word):
            path = copy / "crates" / file
            text = path.read_text(encoding="utf-8")
            if text.count(old) != 1:
                sys.exit(f"planted: {file}: '{old}' stands {text.count(old)} times")
            path.write_text(text.replace(old, new), encoding="utf-8")
            began = time.monotonic()
            proved, why = check(copy, file.split("/")[0])
            path.write_text(text, encoding="utf-8")
            planted += 1
            passed += proved
            verdict = "PASSED" if proved else "refused"
            print(f"{verdict} {file}: {title} ({time.monotonic() - began:.0f} s)\n    {why}", flush=True)
    print(f"{planted} planted, {planted - passed} refused")
    sys.exit(1 if passed or not planted else 0)


main()
