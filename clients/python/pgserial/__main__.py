"""python3 -m pgserial WORD..: runs the program pgserial."""

import os
import sys

from . import InterfaceError, _program


def main() -> int:
    """Runs the program in the place of this process, with the words of the command line."""
    try:
        program = _program(None)
    except InterfaceError as error:
        print(f"pgserial: {error}", file=sys.stderr)
        return 2
    os.execv(program, [program, *sys.argv[1:]])


if __name__ == "__main__":
    sys.exit(main())
