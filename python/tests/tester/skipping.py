"""How a test says that it cannot run here, with pytest or without."""


class Skipped(Exception):
    """A test that cannot run here, where there is no pytest."""


def skip(why: str) -> None:
    """Ends the test, which counts as skipped."""
    try:
        import pytest
    except ImportError:
        raise Skipped(why) from None
    pytest.skip(why)
