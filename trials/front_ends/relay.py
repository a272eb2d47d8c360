"""What stands between a centre and a sign."""

import select
import socket
import threading

from .bench import Trial


class Relay(threading.Thread):
    """Stands between a centre and a sign, remembers all datagrams, and loses some."""

    def __init__(self, trial: Trial, port: int) -> None:
        super().__init__(daemon=True)
        self.trial = trial
        self.centre, self.sign = (socket.socket(socket.AF_INET, socket.SOCK_DGRAM) for _ in range(2))
        self.centre.bind(("127.0.0.1", 0))
        self.sign.connect(("127.0.0.1", port))
        self.requests: list[bytes] = []
        self.replies: list[bytes] = []
        self.is_done = False

    def run(self) -> None:
        """Until it is done."""
        peer = None
        while not self.is_done:
            for file in select.select([self.centre, self.sign], [], [], 0.05)[0]:
                try:
                    octets, sender = file.recvfrom(65_535)
                except OSError:
                    continue
                is_lost = self.trial.chance.random() < 0.15
                if file is self.centre:
                    peer = sender
                    self.requests.append(octets)
                    if not is_lost:
                        self.sign.send(octets)
                else:
                    self.replies.append(octets)
                    if not is_lost and peer is not None:
                        self.centre.sendto(octets, peer)

    def port(self) -> int:
        return int(self.centre.getsockname()[1])

    def end(self) -> None:
        self.is_done = True
        self.join()
        self.centre.close()
        self.sign.close()
