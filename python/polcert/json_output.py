"""What the commands print with --json: docs/output.schema.json describes it. Numbers that are exact are strings of decimals."""
import json

from polcert.version import VERSION


def json_text(command: str, **fields: object) -> str:
    """A result as one JSON object with a line end."""
    return json.dumps({"polcert": VERSION, "command": command, **fields}, indent=2) + "\n"
