"""How many are recorded in a second."""

import random

from wisangub.endpoint.limit import MOST_RECORDED, MOST_WAITING, Limit


def test_at_most_so_many_are_let_through_in_any_second() -> None:
    chance = random.Random(3)
    limit: Limit[int] = Limit(MOST_RECORDED)
    times: list[float] = []
    passed: list[int] = []
    now, number = 5.0, 0
    for _ in range(4000):
        now += chance.choice([0.0, 0.001, 0.004, 0.02])
        found = limit.due(now, 16)
        if chance.random() < 0.8:
            number += 1
            found += [number] if limit.lets(number, now) else []
        times += [now] * len(found)
        passed += found
        assert len(limit.waiting) <= MOST_WAITING
    assert passed == sorted(passed) and len(passed) + len(limit.waiting) + limit.dropped == number
    assert limit.dropped > 0
    for at in range(len(times) - MOST_RECORDED):
        assert times[at + MOST_RECORDED] - times[at] >= 1.0


def test_what_waits_is_let_through_in_its_second() -> None:
    limit: Limit[str] = Limit(2)
    assert limit.wait(10.0) is None
    assert [limit.lets(one, 10.0) for one in "abc"] == [True, True, False]
    assert limit.wait(10.25) == 0.75 and limit.due(10.5, 9) == []
    assert not limit.lets("d", 11.0)  # it comes after what waits
    assert limit.wait(11.5) == 0.0 and limit.due(11.5, 1) == ["c"] and limit.due(11.5, 9) == ["d"]
    assert limit.wait(11.5) is None and not limit.lets("e", 11.6) and limit.wait(11.75) == 0.75


def test_what_comes_beside_those_that_wait_is_dropped_and_counted() -> None:
    limit: Limit[int] = Limit(1)
    for at in range(100):
        limit.lets(at, 1.0)
    assert limit.dropped == 100 - 1 - MOST_WAITING and list(limit.waiting) == list(range(1, 1 + MOST_WAITING))
