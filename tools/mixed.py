"""Edits that mix typed numbers, crates/NAME/mixed/*.edit: the compiler must refuse each of them, and for the reason that its last line gives.

They are tried here and not among the must-fail edits, since those have to pass the compiler and fall to the prover."""

import pathlib
import shutil
import subprocess
import sys
import tempfile

ROOT = pathlib.Path(__file__).resolve().parent.parent
KIND = "error[mismatched-types]"


def read(edit):
    """The fields of an edit: file, old, new, error."""
    lines = edit.read_text().splitlines()
    return {key: value.removeprefix(" ") for key, value in (line.split(":", 1) for line in lines if not line.startswith("#"))}


def refusal(edit, copy):
    """What is wrong with the answer to an edit, or nothing."""
    fields = read(edit)
    crate = edit.parent.parent.name
    source = copy / "crates" / crate / fields["file"]
    text = source.read_text()
    if text.count(fields["old"]) != 1:
        return f"its old line stands {text.count(fields['old'])} times in {fields['file']}; mend the edit"
    source.write_text(text.replace(fields["old"], fields["new"]))
    done = subprocess.run(["rt", "check"], cwd=copy / "crates" / crate, capture_output=True, text=True)
    source.write_text(text)
    said = done.stdout + done.stderr
    if done.returncode == 0 or KIND not in said or fields["error"] not in said:
        return f"the compiler does not say {KIND} and {fields['error']!r}; it says:\n{said[-2000:]}"
    return None


def main():
    edits = sorted(ROOT.glob("crates/*/mixed/*.edit"))
    with tempfile.TemporaryDirectory() as folder:
        copy = pathlib.Path(folder)
        shutil.copy(ROOT / "crates.txt", copy)
        shutil.copytree(ROOT / "crates", copy / "crates", ignore=shutil.ignore_patterns("must-fail", "out"))
        wrong = [(edit, why) for edit in edits if (why := refusal(edit, copy))]
    for edit, why in wrong:
        print(f"{edit.relative_to(ROOT)}: {why}")
    if wrong or not edits:
        sys.exit(f"typed numbers: {len(wrong)} of {len(edits)} edits are not refused as they must be")
    print(f"typed numbers: the compiler refuses all {len(edits)} edits that mix them")


main()
