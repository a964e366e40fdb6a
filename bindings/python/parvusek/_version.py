"""The version of this module, and of the library that it takes: their major and minor numbers are the same."""

__version__ = "0.8.0"
