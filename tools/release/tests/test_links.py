"""References of installed files that lead nowhere are found, and links of a release's pages lead to what is there."""

import gzip
import pathlib
import subprocess

FOLDER = pathlib.Path(__file__).resolve().parents[1]


def written(root: pathlib.Path, files: dict[str, str]) -> None:
    for name, text in files.items():
        path = root / name
        path.parent.mkdir(parents=True, exist_ok=True)
        path.write_bytes(gzip.compress(text.encode()) if name.endswith(".gz") else text.encode())


def looked_at(root: pathlib.Path) -> list[str]:
    """What links.py says of all files below the root."""
    names = "\n".join(f"/{path.relative_to(root)}" for path in sorted(root.rglob("*")))
    ended = subprocess.run([FOLDER / "links.py", root], input=names, capture_output=True, text=True, check=False)
    assert not ended.stderr and ended.returncode == (1 if ended.stdout else 0)
    return ended.stdout.splitlines()


def mended(root: pathlib.Path, *words: str) -> None:
    subprocess.run([FOLDER / "mend.py", root, *words], check=True)


def test_links_of_pages(tmp_path: pathlib.Path) -> None:
    page = "# One\n[a](b.md#two) [b](b.md#three) [c](none.md) [d](#one) [e](https://none.example/)\n"
    page += "```\n[f](none.md)\n```\n"
    written(tmp_path, {"usr/a.md": page, "usr/b.md": "## Two\n"})
    assert looked_at(tmp_path) == ["usr/a.md: b.md#three", "usr/a.md: none.md"]


def test_paths_and_manuals(tmp_path: pathlib.Path) -> None:
    unit = "Documentation=man:wisangub-sign(1)\nExecStart=/usr/bin/wisangub-sign --sign /etc/wisangub/%i.sign\n"
    page = ".Xr wisangub-sign 1 ,\n.Xr wisangub-none 1\n.Pa /usr/share/wisangub/none.md .\n"
    page += ".Pa /etc/wisangub/NAME.sign\n.Pa /etc/wisangub/fleet.toml\n"
    written(tmp_path, {"usr/lib/systemd/system/wisangub-sign@.service": unit})
    written(tmp_path, {"usr/share/man/man1/wisangub-sign.1.gz": page})
    written(tmp_path, {"etc/wisangub/roadside.sign": "", "etc/wisangub/x.conf": "# /var/lib/wisangub/room.sqlite\n"})
    assert looked_at(tmp_path) == [
        "etc/wisangub/x.conf: /var/lib/wisangub/room.sqlite",
        "usr/lib/systemd/system/wisangub-sign@.service: /usr/bin/wisangub-sign",
        "usr/share/man/man1/wisangub-sign.1.gz: /usr/share/wisangub/none.md",
        "usr/share/man/man1/wisangub-sign.1.gz: wisangub-none(1)",
    ]
    written(tmp_path, {"var/lib/wisangub/x": "", "usr/bin/wisangub-sign": ""})
    assert len(looked_at(tmp_path)) == 2


def test_a_symbolic_link_that_leads_nowhere_is_found(tmp_path: pathlib.Path) -> None:
    written(tmp_path, {"usr/there": ""})
    (tmp_path / "usr/one").symlink_to("/usr/there")
    (tmp_path / "usr/two").symlink_to("there")
    (tmp_path / "usr/three").symlink_to("../../none")
    (tmp_path / "usr/four").symlink_to("four")
    assert looked_at(tmp_path) == ["usr/four: four", "usr/three: ../../none"]


def test_links_are_mended(tmp_path: pathlib.Path) -> None:
    page = "[a](B.md#two), [b\nc](../examples/x.c), ![d](pictures/e.png), [f](../g.md), [h](#i), `[nl]`\n"
    page += "```\n[f](../g.md)\n```\n"
    written(tmp_path, {"own/share/docs/A.md": page, "own/doc/x.c": "", "other/share/docs/B.md": ""})
    mended(tmp_path / "own", "docs=share/docs", "examples=none", "examples=doc", "--beside", str(tmp_path / "other"))
    wanted = "[a](B.md#two), [b\nc](../../doc/x.c), d, f, [h](#i), `[nl]`\n```\n[f](../g.md)\n```\n"
    assert (tmp_path / "own/share/docs/A.md").read_text() == wanted


def test_a_page_of_its_own(tmp_path: pathlib.Path) -> None:
    written(tmp_path, {"doc/C.md": "[a](../include/h.h) [b](P.md)", "include/h.h": "", "share/docs/P.md": ""})
    mended(tmp_path, "docs=share/docs", "docs/C.md=doc/C.md", "include=include")
    assert (tmp_path / "doc/C.md").read_text() == "[a](../include/h.h) [b](../share/docs/P.md)"
