"""Why a pool gets no plan, in words."""

from __future__ import annotations

# The number of the refusal of a pool whose rule has several blocks, and what is said of it.
BLOCKS = "29 "
OF_BLOCKS = "its rule takes OSDs in several steps, of which the balancer plans none"


def why_words(refusal: str) -> str:
    """Why a pool gets no plan."""
    return f"{OF_BLOCKS} ({refusal})" if refusal.startswith(BLOCKS) else refusal


def refusal_words(refusal: str) -> str:
    """That a pool gets no plan, and why."""
    return f"no plan: {why_words(refusal)}"
