"""The version of the package, and of the library that it is for."""

VERSION = "0.2.0"
