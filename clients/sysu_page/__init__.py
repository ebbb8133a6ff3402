"""A page in the browser for sysu, on the module `sysu` (docs/PAGE.md)."""
from .server import main

__all__ = ["main"]
