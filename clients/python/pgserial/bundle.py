"""What came with this package: a wheel has the program and libpgserial in it."""

import os
from typing import Optional


def bundled(name: str) -> Optional[str]:
    """The path of a file that came with this package, or nothing."""
    path = os.path.join(os.path.dirname(os.path.abspath(__file__)), "bundled", name)
    return path if os.path.exists(path) else None
