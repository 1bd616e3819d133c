"""rekhuso's face in ceph-mgr."""
from .module import Module  # noqa: F401
