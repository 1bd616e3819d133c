"""Clusters: dumps, trees, pools, weights, and what a Ceph monitor does with them."""

# Its modules are for the tools themselves; callers go by what `rekhuso` offers.
__all__: list[str] = []
