"""The old name of bin/wisangub-conform, for one release: python3 -m conform"""

import sys

sys.path[:1] = [f"{sys.path[0]}/python", sys.path[0]]
from wisangub.tester.__main__ import run  # noqa: E402

if __name__ == "__main__":
    sys.exit(run())
