"""Has the modules of tools/lib for the programs of this folder."""
from __future__ import annotations

import os

__path__ = [os.path.join(os.path.dirname(__file__), os.pardir, os.pardir, "tools", "lib")]
