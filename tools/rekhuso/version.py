"""The version of the tools, which is that of the programs that they ask."""

VERSION = "0.2.0"
