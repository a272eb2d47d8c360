"""What all pages share: the fleet, the database's connections, pictures, clock, templates, and who asks."""

import functools
import pathlib
from typing import Any, Hashable

import jinja2
from aiohttp import web
from markupsafe import Markup

from wisangub.endpoint.endings import with_step
from wisangub.room.addresses import Addresses
from wisangub.room.fleet import Sign
from wisangub.room.plain import counted, plain_of
from wisangub.room.store.keys import key_of
from wisangub.room.store.logins import Visitor
from wisangub.room.store.rights import Rights
from wisangub.room.store.store import Store
from wisangub.snmp.mib import Mib

from . import device_words, words
from .connections import Connections
from .faces import Face, faces_of
from .limits import Limits
from .pictures import Pictures
from .progress import because, states
from .security import Seal
from .settings import Settings, zone_of

HERE = pathlib.Path(__file__).resolve().parent
_MOST_CARDS = 8192  # that are kept as HTML, of 800 octets each


class Service:
    """The service of the pages: one for all of them."""

    def __init__(self, settings: Settings, signs: list[Sign]) -> None:
        self.settings = settings
        self.connections = Connections(settings.database, settings.threads)
        held = self.connections.held()
        rows = {sign.name: sign_id for sign_id, sign in Store(held).signs.enter(signs).items()}
        self.signs = {rows[sign.name]: sign for sign in signs}  # in the fleet's order
        self.faces = faces_of(self.signs, settings.program)
        self.by_key = {face.key: face for face in self.faces.values()}
        self.seal = Seal(key_of(held), settings.is_behind_tls)
        self.connections.let_go()
        self.addresses = Addresses([(sign.host, sign.port) for sign in signs]).wait()
        self.pictures = Pictures(settings.program)
        self.limits = Limits(settings.patience, settings.is_behind_tls)
        self.mib = Mib.read()
        zone = settings.zone or zone_of(None)
        self.clock, self.zone_name = words.Clock(zone), str(zone)
        self.templates = self.environment()
        self.card = functools.lru_cache(_MOST_CARDS)(self._made_card)

    def environment(self) -> jinja2.Environment:
        """Templates, which escape all that is put into them."""
        made = jinja2.Environment(
            loader=jinja2.FileSystemLoader(HERE / "templates"),
            autoescape=True,
            undefined=jinja2.StrictUndefined,
            trim_blocks=True,
            lstrip_blocks=True,
        )
        made.globals.update(
            service=self,
            clock=self.clock,
            words=words,
            plain_of=plain_of,
            counted=counted,
            text_of=words.text_of,
            asked=words.asked,
            states=states,
            because=because,
            with_step=with_step,
            device_facts=device_words.facts,
        )
        return made

    # ---- pages

    def html(self, template: str, /, **values: Any) -> str:
        return self.templates.get_template(template).render(**values)

    def part(self, name: str, macro: str, *values: Any) -> str:
        """A part of a page, as an event sends it."""
        made: str = str(getattr(self.templates.get_template(name).module, macro)(*values)).strip()
        return made

    def _made_card(self, card: Hashable, age: str = "") -> Markup:
        """A card of the wall, with its age in words or else the time. `card` keeps it: few change within a second."""
        return Markup(self.part("parts.html", "card", card, age))

    def page(self, request: web.Request, template: str, /, status: int = 200, **values: Any) -> web.Response:
        """A whole page for who asks."""
        visitor: Visitor | None = request.get("visitor")
        rights: Rights = request.get("rights", Rights())
        token = self.seal.token(visitor.login) if visitor else ""
        common = {"now": None, "view": "", "may_command": rights.commands_some}
        text = self.html(
            template, visitor=visitor, rights=rights, token=token, path=request.path, **{**common, **values}
        )
        octets = text.encode("utf-8", "backslashreplace")  # a file's name may be no UTF-8
        return web.Response(body=octets, content_type="text/html", charset="utf-8", status=status)

    # ---- what pages ask for

    def face(self, sign_id: int) -> Face | None:
        """A sign's face; None for one of another fleet."""
        return self.faces.get(sign_id)

    def picture(self, sign_id: int, text: bytes) -> str | None:
        """Where the picture of a text on a sign is."""
        face = self.faces.get(sign_id)
        return f"/pictures/{face.key}/{text.hex() or '-'}.svg" if face else None

    def close(self) -> None:
        self.connections.close()
        self.addresses.close()


SERVICE = "service"


def service_of(request: web.Request) -> Service:
    found: Service = request.app[SERVICE]
    return found


def visitor_of(request: web.Request) -> Visitor:
    """Who asks; pages that want nobody do not call it."""
    found: Visitor = request["visitor"]
    return found


def rights_of(request: web.Request) -> Rights:
    """What who asks may do on which sign."""
    found: Rights = request["rights"]
    return found


def commanded(request: web.Request) -> dict[int, Face]:
    """The faces of the signs that who asks may command."""
    rights = rights_of(request)
    return {sign_id: face for sign_id, face in service_of(request).faces.items() if rights.may_command(sign_id)}


def sign_of(request: web.Request) -> int:
    """The sign that the address names; one that who asks may not see is none."""
    sign_id = int(request.match_info["sign"])
    if sign_id not in service_of(request).signs or not rights_of(request).may_see(sign_id):
        raise web.HTTPNotFound(text="There is no such sign in the fleet.")
    return sign_id
