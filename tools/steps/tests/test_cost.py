"""What a part of the gate says that it took."""

import re
import subprocess
import sys

from steps.cost import Cost

WORDS = re.compile(r"(\d+\.\d) minutes, (\d+\.\d) of processors")


def test_what_took_nothing_says_so() -> None:
    assert str(Cost()) == "0.0 minutes, 0.0 of processors"


def test_programs_that_it_waited_for_are_counted() -> None:
    cost = Cost()
    busy = "import time\nwhile time.process_time() < 3.5: pass"
    for process in [subprocess.Popen([sys.executable, "-c", busy]) for _ in range(2)]:
        process.wait()
    found = WORDS.fullmatch(str(cost))
    assert found and float(found[2]) >= 0.1
