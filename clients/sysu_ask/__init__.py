"""A prompt for sysu, on the module `sysu` (docs/ASK.md)."""
from .prompt import main

__all__ = ["main"]
