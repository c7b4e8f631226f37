"""The objects of the package: by the extension where it is there, and otherwise by ctypes.

The extension needs Python 3.10 or later. With `FANCY_CTYPES` in the environment it is left out.
"""

import os
import sys

try:
    if os.environ.get("FANCY_CTYPES") or sys.version_info < (3, 10):
        raise ImportError("the extension is not wanted")
    from ._fast import Match, Pattern, ReMatch, RePattern, add_to_re, compiled, forget, found, re_pattern

    IS_FAST = True
except ImportError:
    from ._patterns import Match, Pattern, ReMatch, RePattern, add_to_re, compiled, forget, found, re_pattern

    IS_FAST = False

__all__ = ["IS_FAST", "Match", "Pattern", "ReMatch", "RePattern", "add_to_re", "compiled", "forget", "found", "re_pattern"]
