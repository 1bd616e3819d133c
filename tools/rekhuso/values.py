"""How classes of values are made."""

from __future__ import annotations

import sys

# For `dataclass`: values have slots and no dictionary, where Python makes slots of fields.
SLOTS: dict[str, bool] = {"slots": True} if sys.version_info >= (3, 10) else {}
