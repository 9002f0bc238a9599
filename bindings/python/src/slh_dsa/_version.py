"""The version of the package, which is that of the library for C."""

__version__ = "0.21.0"
