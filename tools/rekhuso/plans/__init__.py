"""Plans: what the balancer makes of a cluster, and what a what-if asks."""

# Its modules are for the tools themselves; callers go by what `rekhuso` offers.
__all__: list[str] = []
