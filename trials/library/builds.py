"""The library as a maker builds with it: C++, CMake, pkg-config, and ARM64."""

from __future__ import annotations

import functools
import pathlib
import re
import shutil
import subprocess
import sys

from .trial import AARCH64, PLAIN, TOP, Trial

WARNINGS = ("-Wall", "-Wextra", "-Werror", "-pedantic")
ROADSIDE = str(TOP / "signs" / "roadside.sign")
PARTS = ("examples", "include")


@functools.cache
def version() -> str:
    """The version that the program says."""
    words = [sys.executable, str(TOP / "tools/version.py")]
    return subprocess.run(words, capture_output=True, text=True, check=True).stdout.strip()


def copied(trial: Trial, name: str, library: pathlib.Path) -> pathlib.Path:
    """A maker's own folder, with copies of the examples, the header and the library."""
    folder = trial.folder / name
    for part in PARTS:
        shutil.copytree(TOP / part, folder / part, ignore=shutil.ignore_patterns("out"))
    shutil.copy(library, folder / "libwisangub.a")
    return folder


def runs(trial: Trial, name: str, program: pathlib.Path) -> None:
    """A header test that was built so."""
    status, said = trial.ran([str(program), ROADSIDE])
    trial.check(f"{name}: header_test", (status, said) == (0, "ok\n"), said)


def cpp(trial: Trial, library: pathlib.Path) -> None:
    """The header and the header test in C++17, over the heap in C."""
    if not trial.has("C++", "g++"):
        return
    folder, include = trial.folder / "cpp", f"-I{TOP / 'include'}"
    parts = {"heap.o": TOP / "examples/heap.c", "wisangub.o": TOP / "include/wisangub.c"}
    for name, part in parts.items():
        words = ["cc", "-std=c11", *WARNINGS, include, "-c", "-o", str(trial.folder / name), str(part)]
        trial.check(f"C++: {name}", trial.ran(words) == (0, ""))
    made = [*(str(trial.folder / name) for name in parts), str(library)]
    source = ["-x", "c++", str(TOP / "examples/header_test.c"), "-x", "none", *made]
    for standard in ("c++11", "c++17"):
        status, said = trial.ran(["g++", f"-std={standard}", *WARNINGS, include, "-o", str(folder), *source])
        if trial.check(f"{standard}: compile", status == 0, said):
            runs(trial, standard, folder)


def cmake(trial: Trial, library: pathlib.Path) -> None:
    """examples/CMakeLists.txt, as it stands beside copies of its sources."""
    if not trial.has("CMake", "cmake"):
        return
    folder = copied(trial, "cmake", library)
    made, given = folder / "build", f"-DWISANGUB_LIBRARY={folder / 'libwisangub.a'}"
    for words in (["cmake", "-S", str(folder / "examples"), "-B", str(made), given], ["cmake", "--build", str(made)]):
        status, said = trial.ran(words)
        if not trial.check(f"CMake: {words[1]}", status == 0, said[-600:]):
            return
    runs(trial, "CMake", made / "header_test")
    status, said = trial.ran([str(made / "signd")])
    trial.check("CMake: signd", status == 2 and "usage: signd" in said, said)


def pkg_config(trial: Trial, library: pathlib.Path) -> None:
    """`make install`, and a program that finds the library by pkg-config."""
    if not trial.has("pkg-config", "pkg-config"):
        return
    prefix = trial.folder / "prefix"
    words = ["make", "-s", "install", f"LIBRARY={library}", f"OUT={trial.folder / 'plain'}", f"PREFIX={prefix}"]
    status, said = trial.ran(words, folder=TOP / "examples")
    if not trial.check("pkg-config: make install", status == 0, said):
        return
    place = str(prefix / "lib/pkgconfig")
    status, flags = trial.ran(["pkg-config", "--cflags", "--libs", "wisangub"], PKG_CONFIG_PATH=place)
    status_of_version, version = trial.ran(["pkg-config", "--modversion", "wisangub"], PKG_CONFIG_PATH=place)
    trial.check("pkg-config: its version", status_of_version == 0 and version[:1].isdigit(), version)
    program, source = prefix / "header_test", str(TOP / "examples/header_test.c")
    words = ["cc", "-std=c11", *WARNINGS, source, *flags.split(), "-o", str(program)]
    if trial.check("pkg-config: flags", status == 0, flags):
        status, said = trial.ran(words)
        if trial.check("pkg-config: compile", status == 0, said):
            runs(trial, "pkg-config", program)


def is_for_aarch64(trial: Trial) -> bool:
    """Whether programs for ARM64 can be made and run here; else it is skipped by name."""
    return all(trial.has("aarch64", needed) for needed in ("aarch64-linux-gnu-gcc", AARCH64.by[0]))


# what x86-64-v2 has over plain x86-64 (System V ABI): SSE3, SSSE3, SSE4.1, SSE4.2, POPCNT, CMPXCHG16B, LAHF
OF_V2 = r"""popcnt\w?|crc32\w?|cmpxchg16b|[ls]ahf|addsubp[sd]|h(?:add|sub)p[sd]|mov(?:s[hl]|d)dup|lddqu|fisttp\w*
    |pshufb|palignr|pabs[bwd]|ph(?:add|sub)\w+|psign[bwd]|pmaddubsw|pmulhrsw|p?blend\w+|pmov[sz]x\w+
    |p(?:max|min)(?:s[bd]|u[wd])|pextr[bdq]|pinsr[bdq]|ptest|pcmp(?:eq|gt)q|pcmp[ei]str[im]|round[sp][sd]
    |packusdw|insertps|extractps|dpp[sd]|mpsadbw|pmuldq|pmulld|phminposuw|movntdqa"""


def is_for_any(trial: Trial, library: pathlib.Path) -> bool:
    """Whether the library has only instructions that each x86-64 has."""
    if not trial.has("any x86-64", "objdump"):
        return False
    status, said = trial.ran(["objdump", "-d", "--no-show-raw-insn", str(library)])
    found = set(re.findall(rf"(?mx)^\s*[0-9a-f]+:\s+({OF_V2})(?=\s|$)", said))
    found |= set(re.findall(r"%[yz]mm", said))
    return trial.check("any x86-64: instructions", status == 0 and not found and "ret" in said, found)


def functions() -> set[str]:
    """The functions of the header, but for those of the proved crate and of the heap."""
    header = (TOP / "include/wisangub.h").read_text(encoding="utf-8")
    found = re.findall(r"(?m)^WISANGUB_INLINE \w[\w ]* (wisangub_\w+)\(", header)
    return {*found, "wisangub_version"}


def of_version() -> str:
    """The name that the version is in."""
    return f"wisangub_{version().replace('.', '_')}"


def declared(trial: Trial) -> None:
    """Each function of the header is called by the header test, and its version is the one of the program."""
    header = (TOP / "include/wisangub.h").read_text(encoding="utf-8")
    test = (TOP / "examples/header_test.c").read_text(encoding="utf-8")
    for name in sorted(functions()):
        trial.check(f"header_test calls {name}", f"{name}(" in test)
    trial.check("the header's version", f'#define WISANGUB_VERSION "{version()}"' in header)
    trial.check("the name of the version", f"#define WISANGUB_OF_THIS_VERSION {of_version()}\n" in header)


def said(trial: Trial) -> None:
    """The programs of the examples say the version and their use."""
    status, told = trial.ran(trial.called(PLAIN, "signd", "--help"))
    options = set(re.findall(r'\{"([a-z-]+)", (?:no|required)_argument', (TOP / "examples/signd.c").read_text("utf-8")))
    lacks = {name for name in options - {"help"} if f"  --{name} " not in told}
    trial.check("signd --help", status == 0 and told.startswith("usage: signd") and not lacks, (lacks, told))
    for name in ("signd", "panel"):
        found = trial.ran(trial.called(PLAIN, name, "--version"))
        trial.check(f"{name} --version", found == (0, f"{name} {version()}\n"), found)


def exported(trial: Trial) -> None:
    """The archive has the functions of the header, and the shared library has them and nothing else."""
    if not trial.has("names", "nm"):
        return
    wanted = functions() | {of_version()}
    for name, words in {"libwisangub.a": (), "shared/libwisangub.so": ("-D",)}.items():
        status, said = trial.ran(["nm", *words, "--defined-only", "-g", str(trial.folder / PLAIN.folder / name)])
        found = {line.split()[-1] for line in said.splitlines() if re.match(r"[0-9a-f]+ [TRV] ", line)}
        is_so = wanted <= found if name.endswith(".a") else wanted == found
        trial.check(f"{name} exports the functions of the header", status == 0 and is_so, (wanted ^ found, said[:200]))


def other_version(trial: Trial) -> None:
    """A program with the header of another version does not link with this library."""
    folder = trial.folder / "other"
    folder.mkdir()
    header = (TOP / "include/wisangub.h").read_text(encoding="utf-8")
    (folder / "wisangub.h").write_text(header.replace(of_version(), "wisangub_0_0_0"), encoding="utf-8")
    libraries = [f"-L{trial.folder / PLAIN.folder}", "-lwisangub", "-lwisangub_heap"]
    for include, is_linked in ((TOP / "include", True), (folder, False)):
        words = ["cc", "-std=c11", "-O2", f"-I{include}", "-o", str(folder / "program")]
        status, said = trial.ran([*words, str(TOP / "examples/header_test.c"), *libraries])
        is_so = status == 0 if is_linked else status != 0 and "wisangub_0_0_0" in said
        trial.check(f"a header of {'this' if is_linked else 'another'} version", is_so, said)


def refused(trial: Trial) -> None:
    """A compiler for 32 bits, or one that lays structs out otherwise, does not compile the header."""
    header, packed = str(TOP / "include/wisangub.h"), "not the layout of the library"
    for flags, why in (("-m32 -ffreestanding", "64-bit targets alone"), ("-fpack-struct", packed)):
        status, said = trial.ran(["cc", "-std=c11", *flags.split(), "-fsyntax-only", "-x", "c", header])
        if "unrecognized" in said:
            trial.skip(f"the header with {flags}", "this compiler has no such target")
        else:
            trial.check(f"the header with {flags}", status != 0 and why in said, said)


def run(trial: Trial, library: pathlib.Path) -> None:
    declared(trial)
    said(trial)
    exported(trial)
    other_version(trial)
    refused(trial)
    for part in (cpp, cmake, pkg_config):
        if trial.left() > 0:
            part(trial, library)
        else:
            trial.skip(part.__name__, "there was no time left for it")
