"""Runs a command of the package: `python3 -m silc NAME WORDS`, which is `tools/NAME WORDS` of the checkout."""
import sys

from silc.commands import names, run

BAD_WORDS = 2


def main() -> None:
    name = sys.argv[1] if len(sys.argv) > 1 else ""
    if name not in names():
        out = sys.stdout if name in ("--help", "-h") else sys.stderr
        print(f"usage: python3 -m silc NAME WORDS..\n\nNAME is one of {', '.join(names())}; NAME --help says more.",
              file=out)
        sys.exit(0 if out is sys.stdout else BAD_WORDS)
    sys.argv[0] = name
    run(name, sys.argv[2:])


main()
