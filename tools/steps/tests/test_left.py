"""How long the rest takes: by the steps that are left, and by how fast those went that ended."""

from steps.left import Left, in_words
from steps.step import Step


def step(name: str, seconds: float, limit: int = 100) -> Step:
    return Step(name, "true", limit, "", seconds)


def test_steps_go_side_by_side_and_then_one_at_a_time() -> None:
    left = Left([step("a", 40, 300), step("b", 10), step("c", 10)], [step("d", 30), step("e", 5)], 2)
    assert left.ends == {"a": 40, "b": 10, "c": 20, "d": 70, "e": 75}
    assert left.after(0) == 75


def test_a_machine_that_is_busy_takes_longer() -> None:
    left = Left([step("a", 40, 300), step("b", 10)], [], 2)
    left.end("b", 30)
    assert left.after(30) == 90


def test_a_step_that_should_be_over_makes_the_rest_longer() -> None:
    left = Left([step("a", 40, 300), step("b", 10)], [], 2)
    assert (left.after(5), left.after(10), left.after(20)) == (35, 30, 60)
    left.end("a", 40)
    left.end("b", 40)
    assert left.after(60) == 100


def test_it_is_never_less_than_a_second() -> None:
    left = Left([step("a", 10)], [], 1)
    assert left.after(9.9) == 1
    left.end("a", 5)
    assert left.after(6) == 1


def test_no_step_takes_no_time() -> None:
    assert Left([], [], 4).all == 0


def test_minutes_are_said_where_there_are_many_seconds() -> None:
    assert (in_words(41.2), in_words(240)) == ("some 41 s", "some 4 minutes")
