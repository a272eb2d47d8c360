"""Who is told of alarms during chaos: a server of webhooks, which refuses, or ends without an answer, now and then."""

import http.server
import json
import pathlib
import random
import threading
from collections import Counter

from wisangub.room.notices import Webhook
from wisangub.room.store import alarms
from wisangub.room.store.alarms import TRIES
from wisangub.room.store.store import Store
from wisangub.room.store.values import whole

from .beside import NAME
from .chaos_checks import Outcome

REFUSES, SAYS_NOTHING = 0.2, 0.1  # of the requests
SEEN = 0.01  # of the looks at which somebody acknowledges an alarm
Key = tuple[str, str, str]  # sign, kind, and what it is


class Target:
    """The server, with what it was told of and what it took."""

    def __init__(self, seed: int) -> None:
        self.chance, self.lock = random.Random(seed), threading.Lock()
        self.posted: Counter[Key] = Counter()
        self.taken: Counter[Key] = Counter()
        self.seen = 0
        target = self

        class Handler(http.server.BaseHTTPRequestHandler):
            def do_POST(self) -> None:
                status = target.told(json.loads(self.rfile.read(int(self.headers["Content-Length"]))))
                if status:
                    self.send_response(status)
                    self.end_headers()

            def log_message(self, *_: object) -> None:
                pass

        self.server = http.server.ThreadingHTTPServer(("127.0.0.1", 0), Handler)
        self.url = f"http://127.0.0.1:{self.server.server_address[1]}/alarms"
        self.thread = threading.Thread(target=self.server.serve_forever, name="target", daemon=True)
        self.thread.start()

    def told(self, body: dict[str, list[dict[str, str]]]) -> int:
        """The status of the answer to alarms; 0 where there is none."""
        keys = [(one["sign"], one["kind"], one["what"]) for one in body["alarms"]]
        with self.lock:
            at = self.chance.random()
            status = 0 if at < SAYS_NOTHING else 503 if at < SAYS_NOTHING + REFUSES else 204
            self.posted.update(keys)
            self.taken.update(keys if status == 204 else [])
        return status

    def file(self, folder: pathlib.Path) -> str:
        """The file that workers are given by --alarms."""
        path = folder / "alarms.toml"
        path.write_text(f'[[webhook]]\nurl = "{self.url}"\n', encoding="utf-8")
        return str(path)

    def step(self, store: Store, chance: random.Random) -> None:
        """Somebody acknowledges the oldest alarm, now and then."""
        rows = store.database.run("SELECT min(id) FROM alarms WHERE seen_by IS NULL AND ended IS NULL")
        if rows[0][0] is not None and chance.random() < SEEN:
            self.seen += alarms.see(store.database, whole(rows[0][0]), NAME)

    def end(self) -> None:
        self.server.shutdown()
        self.server.server_close()
        self.thread.join()


def look_at_alarms(found: Outcome, store: Store, target: Target) -> str:
    """What holds of the alarms of a run: the numbers, in words."""
    rows = store.database.run(
        "SELECT signs.name, alarms.kind, alarms.what, notices.told, notices.tries FROM alarms"
        " JOIN signs ON signs.id = alarms.sign LEFT JOIN notices ON notices.alarm = alarms.id AND notices.target = ?",
        Webhook(target.url).name,
    )
    tries: Counter[Key] = Counter()
    told: Counter[Key] = Counter()
    for sign, kind, what, at, count in rows:
        key = (str(sign), str(kind), str(what))
        tries[key] += whole(count or 0)
        told[key] += at is not None
        found.holds(f"{key} was told {TRIES} times at most", whole(count or 0) <= TRIES)
    for key in sorted(told | target.posted):
        found.holds(f"{key}: what counts as told was taken", told[key] <= target.taken[key])
        found.holds(f"{key}: nothing is told but what counts as tried", target.posted[key] <= tries[key])
    seen = whole(store.database.run("SELECT count(*) FROM audit WHERE what LIKE '%: alarm % is acknowledged: %'")[0][0])
    marked = whole(store.database.run("SELECT count(*) FROM alarms WHERE seen_by IS NOT NULL")[0][0])
    found.holds("each acknowledged alarm stands in the audit once", seen == marked)
    return f"{len(rows)} alarms, {sum(target.taken.values())} told in {sum(target.posted.values())} tries, {seen} seen"
