#!/usr/bin/env python3
"""write.py [--check]: writes every file of the repository that a script makes; with --check it only compares."""
import pathlib
import sys

import bundles
import byte_table
import chains
import obeying
import reports
import stated

MAKERS = [bundles, byte_table, chains, obeying, reports, stated]
TOP = pathlib.Path(__file__).resolve().parent.parent


def main():
    check = sys.argv[1:] == ["--check"]
    if sys.argv[1:] and not check:
        sys.exit(__doc__)
    stale = []
    for maker in MAKERS:
        for name, content in maker.files().items():
            path = TOP / name
            data = content if isinstance(content, bytes) else content.encode("utf8")
            if check and (not path.exists() or path.read_bytes() != data):
                stale.append(name)
            elif not check:
                path.parent.mkdir(parents=True, exist_ok=True)
                path.write_bytes(data)
    if stale:
        sys.exit("not what tools/write.py writes (run it and commit): " + ", ".join(stale))


main()
