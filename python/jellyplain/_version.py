"""The version of this package, which pyproject.toml takes from here; python/tests holds it to the Makefile's."""
__version__ = "2.0.0"
