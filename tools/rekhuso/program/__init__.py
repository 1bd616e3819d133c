"""The program: its maps, sessions and answers."""

# Its modules are for the tools themselves; callers go by what `rekhuso` offers.
__all__: list[str] = []
