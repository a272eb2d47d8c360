"""All by the keyboard: a text from the log-in to its end, and every control of every page."""

import pathlib

from . import needs

needs.modules("aiohttp", "jinja2", "selenium")
needs.programs("chromium", "chromedriver")

from selenium.webdriver.common.action_chains import ActionChains
from selenium.webdriver.common.keys import Keys

from .browser import Browser, until
from .browsing import FOLLOWS, place
from .standing import in_trouble, standing
from .test_pages import PAGES, where_of
from .visits import PASSWORD

MOST = 300  # keys of a page
# what a visitor may use: each control that is seen, of radio buttons the one that is chosen or the first
CONTROLS = """
const key = (one) => [one.localName, one.id, one.name, one.type, one.value, one.getAttribute("href"),
                      one.textContent.trim().slice(0, 40)].join("|");
window.key = key;
const of = "a[href], button, input:not([type=hidden]), select, textarea, summary, [tabindex='0']";
const found = [...document.querySelectorAll(of)].filter((one) => !one.disabled &&
  one.checkVisibility({checkVisibilityCSS: true}));
return found.filter((one) => one.type !== "radio" ||
  one === (found.find((other) => other.name === one.name && other.form === one.form && other.checked) || one)).map(key);
"""
FOCUS = """
const one = document.activeElement, style = getComputedStyle(one);
return one === document.body ? null : [window.key(one), style.outlineStyle + " " + style.outlineWidth];
"""


def keys(one: Browser, *words: str) -> None:
    """Keys, each to what has the focus."""
    for word in words:
        one.driver.switch_to.active_element.send_keys(word)


def back(one: Browser, link: str, box: str) -> bool:
    """Whether Shift and Tab led from a link, which events make anew now and then, back to a box."""
    one.find(link).send_keys(Keys.SHIFT + Keys.TAB)
    return one.script("return document.activeElement") == one.find(box)


def test_all_by_the_keyboard(tmp_path: pathlib.Path) -> None:
    with place(tmp_path) as at, at.browser() as one:
        one.get("/login")
        until(lambda: one.script("return document.activeElement.name") == "name", "the first field has the focus")
        keys(one, "operator", Keys.TAB, PASSWORD, Keys.ENTER)
        until(lambda: one.all("#find"), "logged in")
        one.find("body").send_keys("/")
        until(lambda: one.focus() == "find", "the field to find a sign has the focus")
        keys(one, "west")
        assert [card.is_displayed() for card in one.all(".card")] == [False, True, False]
        box = f"input[name=sign][value='{at.rows['B300 west']}']"
        until(lambda: back(one, at.card("B300 west", " a"), box), "from a card's link back to its box")
        keys(one, Keys.SPACE)
        assert one.text("#chosen") == "1 chosen"
        keys(one, Keys.ENTER)
        until(lambda: one.all("#text"), "the form")
        one.find("#text").send_keys("KEYS")
        one.shows("#looks img", "roadside", "KEYS")
        keys(one, Keys.CONTROL + Keys.ENTER)
        until(lambda: one.focus() == "send", "the button has the focus")
        keys(one, Keys.ENTER)
        one.accepted(1)


def reached(one: Browser, wanted: set[str]) -> set[str]:
    """What Tab leads to from the page's first control on, each of which is seen to have the focus, until all that are
    wanted were reached."""
    found: dict[str, str] = {}
    one.find(".skip").send_keys(Keys.TAB)
    ActionChains(one.driver).key_down(Keys.SHIFT).send_keys(Keys.TAB).key_up(Keys.SHIFT).perform()
    for _ in range(MOST):
        focus = one.script(FOCUS)
        if isinstance(focus, list):  # else it is on the page itself: after the last control, or where one was made anew
            found[focus[0]] = focus[1]
        if wanted <= set(found):
            break
        ActionChains(one.driver).send_keys(Keys.TAB).perform()
    unseen = {name for name, outline in found.items() if outline != "solid 3px"}
    assert not unseen, f"nobody sees that these have the focus: {unseen}"
    return set(found)


def test_tab_leads_to_every_control(tmp_path: pathlib.Path) -> None:
    with standing(tmp_path) as (made, url), Browser(url) as one:
        one.log_in("administrator")
        in_trouble(made)
        for path in (*PAGES, "/login", "/signs/999"):
            one.get(where_of(made, path))
            until(lambda: one.script("return document.readyState") == "complete", f"{path} and its pictures")
            controls = one.script(CONTROLS)
            assert isinstance(controls, list) and controls, path
            missing = set(controls) - reached(one, set(controls))
            assert not missing, (path, missing)


def test_what_has_the_focus_keeps_it_as_the_page_changes(tmp_path: pathlib.Path) -> None:
    with standing(tmp_path) as (made, url), Browser(url) as one:
        one.log_in("operator")
        made.table(made.one, -4, number=7)
        card, table = f"#sign-{made.two}", "#table"
        for path, part, focus, change, words in (
            ("/", card, f"{card} a", lambda: made.read(made.two, -9, minutes=7), "7 min"),
            (f"/signs/{made.one}/table", table, f"{table} [tabindex]", lambda: made.table(made.one, -9, 77), "77"),
            (
                f"/signs/{made.one}/table",
                table,
                "a[href$='number=7']",
                lambda: made.table(made.one, -10, number=5),
                "changeable 5",
            ),
        ):
            one.get(path)
            one.says(FOLLOWS, "footer")
            one.script("arguments[0].focus()", one.find(focus))
            change()
            one.says(words, part)
            assert one.script("return document.activeElement") == one.find(focus), focus


def test_a_picture_that_is_the_same_stays_where_it_is(tmp_path: pathlib.Path) -> None:
    with standing(tmp_path) as (made, url), Browser(url) as one:
        one.log_in("operator")
        one.get("/")
        one.says(FOLLOWS, "footer")
        picture = one.find(f"#sign-{made.one} img")
        made.read(made.one, -9, text=b"FOG".hex())
        until(lambda: "464f47" in str(picture.get_attribute("src")), "the picture of FOG")
        made.read(made.one, -10, priority=55)
        one.says("priority 55", f"#sign-{made.one}")
        assert one.find(f"#sign-{made.one} img") == picture, "it is not drawn anew"
