#!/usr/bin/env python3
"""fuse.py LIBRARY JOB [CORNERS]: fuses the job of a file in a room of so many corners (8,192 if none are named) and prints its bodies.
Ends with 1 where it was refused, with the reason on standard error. LIBRARY is a shared library: bindings/solid.py says how it is made."""
import pathlib
import struct
import sys

sys.path.insert(0, str(pathlib.Path(__file__).resolve().parent.parent / "bindings"))
import solid


def lines(answer):
    """The bodies of an answer, a line for each body and each shell."""
    at = body = 0
    while at < len(answer):
        body += 1
        (shells,) = struct.unpack_from("<I", answer, at)
        at += 4
        yield f"body {body} shells {shells}"
        for shell in range(1, shells + 1):
            outward, facets = struct.unpack_from("<BI", answer, at)
            at += 5
            yield f"shell {shell} {'outward' if outward else 'inward'} facets {facets}"
            for _ in range(facets):
                (corners,) = struct.unpack_from("<I", answer, at + 96)
                at += 100 + 24 * corners


def main():
    if len(sys.argv) not in (3, 4):
        sys.exit(__doc__)
    library = solid.Solid(sys.argv[1], int(sys.argv[3]) if len(sys.argv) == 4 else 8192)
    job = pathlib.Path(sys.argv[2]).read_bytes()
    try:
        print("answer 0", *lines(library.fuse(job)), sep="\n")
    except solid.Refused as refused:
        print(f"answer {refused.number}")
        sys.exit(refused.reason)


if __name__ == "__main__":
    main()
