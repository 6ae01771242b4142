"""numpy, scipy, pandas and networkx, for tests that compare with them.

They are installed where that may be done; else the file of tests that imports this is left out, with the reason.
"""
import pytest

from helpers.packages import missing

if lacking := missing("python3-numpy", "python3-scipy", "python3-pandas", "python3-shapely", "python3-networkx"):
    pytest.skip(f"it needs {', '.join(lacking)}", allow_module_level=True)

import networkx  # noqa: E402
import numpy  # noqa: E402
import pandas  # noqa: E402
import scipy  # noqa: E402

__all__ = ["networkx", "numpy", "pandas", "scipy"]
