"""The version, which the library must have too."""

__version__ = "0.3.0"
