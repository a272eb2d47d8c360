"""The report as one HTML page."""

import html
import pathlib

from wisangub.tester.findings.differences import Difference
from wisangub.tester.findings.results import ChapterResult, Results, Verdict
from wisangub.tester.findings.trace import ALIKE, DIFFERS

from .causes import cause, causes
from .picture import pages_of, svg
from .words import (
    About,
    chapter_words,
    claim_words,
    head,
    how_sure,
    load_words,
    origin,
    person_words,
    sequence,
    set_back_words,
    verdict,
    way_words,
)

_STYLE = pathlib.Path(__file__).with_name("style.css").read_text(encoding="utf-8")


def _quoted(text: str) -> str:
    return html.escape(text)


def _chapter_row(result: ChapterResult) -> str:
    told = _quoted(chapter_words(result))
    told = f'<span class="verdict bad">{told}</span>' if result.differences else told
    numbers = "".join(
        f'<td class="number">{value}</td>' for value in (result.blocks, result.requests, f"{result.seconds:.1f} s")
    )
    untold = f" ({len(result.once)} now and then)" if result.once else ""
    untold += f" ({result.missing} not judged)" if result.missing else ""
    return f"<tr><td>{_quoted(result.chapter.title)}</td>{numbers}<td>{told}{untold}</td></tr>"


def _reply(title: str, lines: list[str], other: list[str], octets: bytes | None) -> str:
    marked = "\n".join(_quoted(line) if line in other else f"<mark>{_quoted(line)}</mark>" for line in lines)
    return f"<div><b>{title}</b><pre>{marked}</pre><pre>{octets.hex() if octets else '-'}</pre></div>"


def _steps(difference: Difference) -> str:
    found = []
    for octets, lines in sequence(difference):
        fields = "<br>".join(map(_quoted, lines))
        found.append(f"<li>{fields}<pre>{octets}</pre></li>" if octets else f"<li><i>{fields}</i></li>")
    return "<ol>" + "".join(found) + "</ol>"


def _drawn(difference: Difference) -> str:
    found = []
    for caption, lines in difference.pictures:
        found.append(f"<p>{_quoted(caption)}</p>" + "".join(svg(rows, caption) for rows in pages_of(lines)))
    return "".join(found)


def _article(number: int, difference: Difference, about: About) -> str:
    """All that is said of a difference."""
    ours, theirs = difference.sides()
    sure, rule = how_sure(difference), difference.rule
    sides = _reply("Our sign", ours, theirs, difference.ours) + _reply("This sign", theirs, ours, difference.theirs)
    parts = [
        f"<h3>{number}. {_quoted(cause(difference))}</h3>",
        f"<p>{_quoted(difference.title)}</p>",
        f'<p class="small">chapter {_quoted(rule.chapter)} &middot; rule {_quoted(origin(difference))}</p>',
        f"<p><b>{_quoted(rule.heading)}</b></p><blockquote>{_quoted(rule.sentence)}</blockquote>",
        f'<p class="small">{_quoted(sure)}</p>' if sure else "",
        f"<p>From the known state:</p>{_steps(difference)}",
        f'<div class="sides">{sides}</div>',
        _drawn(difference),
        f"<p>Again:</p><pre>{_quoted(about.command(difference))}</pre>",
    ]
    return "<article>" + "".join(parts) + "</article>"


def _objects(title: str, held: list[tuple[str, str, str]]) -> str:
    """A table of objects as described and as read."""
    rows = "".join(f"<tr>{''.join(f'<td>{_quoted(word)}</td>' for word in words)}</tr>" for words in held)
    heads = "<tr><th>object</th><th>described</th><th>read</th></tr>"
    return f"<h2>{title}</h2><table>{heads}{rows}</table>" if held else ""


def _requirements(results: Results) -> str:
    """A table of what the profile has, whether the sign claims it, and the cases that show it."""
    rows = "".join(
        f"<tr><td>{_quoted(held.word)}</td><td>{_quoted(claim_words(held))}</td>"
        f'<td class="number">{held.count(ALIKE)}</td><td class="number">{held.count(DIFFERS)}</td>'
        f"<td>{_quoted(', '.join(held.chapters()) or 'no case')}</td></tr>"
        for held in results.trace.requirements()
    )
    heads = "<tr><th>object or tag</th><th>claimed</th><th>alike</th><th>differ</th><th>shown by cases of</th></tr>"
    return f"<h2>What the cases show</h2><table>{heads}{rows}</table>"


def _list(title: str, lines: list[str]) -> str:
    """A heading and what stands under it; nothing where there is nothing."""
    held = "".join(f"<li>{_quoted(line)}</li>" for line in lines)
    return f"<h2>{title}</h2><ul>{held}</ul>" if lines else ""


def as_html(results: Results, about: About, not_tested: list[str]) -> str:
    """The whole page; it needs nothing else."""
    kind = "good" if results.verdict() is Verdict.CONFORMS else "bad"
    rows = "".join(map(_chapter_row, results.chapters))
    found = results.differences()
    articles = "".join(_article(number, held, about) for number, held in enumerate(found, 1)) or "<p>None.</p>"
    seen = "".join(_article(number, held, about) for number, held in enumerate(results.once(), len(found) + 1))
    once = f"<h2>Now and then</h2>{seen}" if seen else ""
    once += _list("Besides the profile's objects, and no difference", results.besides)
    once += _list("Load", load_words(results)) + _list("What a person saw", person_words(results))
    once += _list("The way to the sign", way_words(results)) + _list("Not judged", results.unjudged())
    summary = _list("What differs", causes(found))
    once += _requirements(results)
    before = _objects("Described otherwise", results.configuration)
    before += _list("What was set", set_back_words(results))
    left_out = "".join(f"<li>{_quoted(line)}</li>" for line in not_tested)
    facts = f"{head(about)}; oracle {about.oracle}; seed {about.seed}; {about.when}"
    facts += f"; taken up from {results.taken_up}" if results.taken_up else ""
    heads = "<tr><th>chapter</th><th>cases</th><th>requests</th><th>time</th><th></th></tr>"
    parts = [
        f'<!doctype html><html lang="en"><meta charset="utf-8"><title>conform: {_quoted(about.to)}</title>',
        f'<style>{_STYLE}</style><main><h1>A sign beside the profile</h1><p class="facts">{_quoted(facts)}</p>',
        f'<p><span class="verdict {kind}">{_quoted(verdict(results))}</span></p>{before}',
        f"<h2>Chapters</h2><table>{heads}{rows}</table>{summary}<h2>Differences</h2>{articles}{once}",
        f"<h2>Not tested</h2><ul>{left_out}</ul></main></html>\n",
    ]
    return "".join(parts)
