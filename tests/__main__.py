"""`./pgserial test`, as `python3 tests`."""

import os
import sys

sys.path[0] = os.path.dirname(os.path.dirname(os.path.abspath(__file__)))
sys.dont_write_bytecode = True

from tests.runner import main  # noqa: E402

sys.exit(main(sys.argv[1:]))
