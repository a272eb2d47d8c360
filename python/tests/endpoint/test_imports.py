"""A sign's front end is there in a fifth of a second: what a start over a journal does not need is imported later."""

import subprocess
import sys

from wisangub.process.places import environment

LATER = {"asyncio", "dataclasses", "datetime", "hashlib", "json", "logging", "pathlib", "shutil", "urllib", "zipfile"}
OURS = {
    "endpoint.archive",
    "endpoint.fast",
    "endpoint.firmware",
    "endpoint.log",
    "endpoint.page.server",
    "objects",
    "snmp.wire",
}


def test_a_start_imports_what_it_needs() -> None:
    said = "import sys; before = {*sys.modules}; import wisangub.endpoint.sign; print(*{*sys.modules} - before)"
    # without `site`, which imports what others put beside it
    ended = subprocess.run([sys.executable, "-S", "-c", said], capture_output=True, env=environment(), check=True)
    found = {*ended.stdout.decode().split()}
    assert "wisangub.endpoint.reading" in found
    assert not found & (LATER | {f"wisangub.{name}" for name in OURS})
