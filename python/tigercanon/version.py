"""The version of the package and of the program."""

VERSION = "0.1.0"
