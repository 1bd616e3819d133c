"""What carries a plan by itself: the connection to a cluster, what is kept there, when nothing is given, and its looks.
"""

# Its modules are for the tools themselves; callers go by what `rekhuso` offers.
__all__: list[str] = []
