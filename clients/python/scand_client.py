"""The client of `scand` under its name of version 0.1.0. It is `fiolargu.scand` now."""

from fiolargu.scand import *  # noqa: F401, F403
from fiolargu.scand import __all__ as __all__
