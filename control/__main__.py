"""The old name of bin/wisangub-control, for one release: python3 -m control"""

import sys

sys.path[:1] = [f"{sys.path[0]}/python", sys.path[0]]
from wisangub.room.__main__ import run  # noqa: E402

if __name__ == "__main__":
    sys.exit(run())
