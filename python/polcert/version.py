"""The version: that of the programs."""
VERSION = "1.0.0"
