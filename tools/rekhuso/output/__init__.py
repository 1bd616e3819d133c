"""Output: tables, JSON forms, pictures, scripts and the page."""

# Its modules are for the tools themselves; callers go by what `rekhuso` offers.
__all__: list[str] = []
