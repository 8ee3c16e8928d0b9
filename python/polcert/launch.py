"""Starts the commands: the scripts of a checkout, and those that pip makes."""
import sys
from importlib import import_module

from polcert.command import run


def launch(name: str) -> int:
    """Runs a command, and returns its exit status."""
    main = import_module(f"polcert.commands.{name.replace('-', '_')}").main
    return run(f"polcert-{name}", main)


def launch_by_name() -> int:
    """Runs the command for which the program is named."""
    name = sys.argv[0].replace("\\", "/").rpartition("/")[2]
    return launch(name[len("polcert-") :])
