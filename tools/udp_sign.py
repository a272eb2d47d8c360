#!/usr/bin/env python3
"""The old name of bin/wisangub-sign, for one release."""

import sys

sys.path[:1] = [f"{sys.path[0]}/../python", f"{sys.path[0]}/.."]
from wisangub.endpoint.sign import run  # noqa: E402

if __name__ == "__main__":
    sys.exit(run())
