#!/usr/bin/env python3
"""Writes which crates of the toolchain the program `aggregator` has in it, and their licences and notices: the tables of
docs/LICENCES.md, and deploy/copyright, which the Debian package and the image have with them.

    tools/licences.py            writes them, from crates.txt and the toolchain's kit
    tools/licences.py --check    only says, by its status, whether they are as that says

The kit is that of the `rt` on the PATH, or of the one that $RT names. It has the licences of a crate beside the crate's source, and
in the crate's library the names of the crates below it. Without a kit `--check` only asks that each crate of the toolchain that
crates.txt names below `aggregator` has its row and its paragraph.
"""
import dataclasses
import itertools
import os
import pathlib
import re
import shutil
import sys
import textwrap

from command import TOP, words_of
from counts import used

PAGE, COPYRIGHT = TOP / "docs/LICENCES.md", TOP / "deploy/copyright"
LICENCES = "| Licence (SPDX) | Crates |\n|---|---|\n"
CRATES = "| Crate | After the Rust crates | Licence (SPDX) | Copyright |\n|---|---|---|---|\n"
NONE = "none in the kit"
PERMISSION = "Permission is hereby granted, free of charge, to any person obtaining a copy of this software"

# The Rust crates that a crate follows or has parts of, where they aren't just the one of its name.
AFTER = {"core": ["fast-float2"], "fast_float": ["fast-float2"], "futures": ["futures", "tokio", "tokio-util"], "http1": ["hyper"],
         "http_header": ["http"], "http_uri": ["http"], "hyper": ["hyper", "hyper-util"], "idna": ["idna", "idna_adapter"],
         "ryu": ["ryu", "zmij"], "tokio": ["tokio", "tokio-util"]}

# What stands before the version of a Rust crate, if not its name.
BEFORE_VERSION = {"idna": "of version"}

# Where a notice stands within a crate's source.
WITHIN = {"core": "src/dec2flt/mod.rt"}

MAKERS = "the makers of the Rattle toolchain"

# What the program has of others besides: the files of the kit, whose they are, and the licence.
OBJECTS = (
    ("toolchain/lib/Scrt1.o toolchain/lib/crti.o toolchain/lib/crtn.o toolchain/lib/libc_nonshared.a",
     "Free Software Foundation, Inc., and others (the GNU C Library)", "LGPL-2.1-or-later",
     "With it comes the permission to link these files into any program, and to\npass that on."),
    ("toolchain/lib/crtbeginS.o toolchain/lib/crtendS.o toolchain/lib/libgcc.a", "Free Software Foundation, Inc. (GCC)",
     "GPL-3.0-or-later WITH GCC-exception-3.1", "The exception allows what is linked with these files to have any licence."),
    ("c/libos_c.a c/liblibc_c.a", MAKERS, "unstated", ""),
)

# The licences whose texts stand elsewhere, and where.
TEXTS_ELSEWHERE = {
    "Apache-2.0": "On Debian systems the text of this license is in\n/usr/share/common-licenses/Apache-2.0. In an image it stands beside\n"
                  "this file, in LICENSE.",
    "LGPL-2.1-or-later": "On Debian systems the text of this license is in\n/usr/share/common-licenses/LGPL-2.1.",
    "GPL-3.0-or-later WITH GCC-exception-3.1": "On Debian systems the text of this license is in\n/usr/share/common-licenses/GPL-3. The "
                                               "exception is the GCC Runtime Library\nException, version 3.1.",
    "unstated": "The kit of the toolchain has no licence for these.",
}


@dataclasses.dataclass
class Crate:
    """A crate of the toolchain: after which Rust crates, under which licence (empty if its kit has none), and whose."""
    name: str
    after: str
    licence: str
    copyrights: list


# ---- which crates ----


def kit_folder():
    """The toolchain's kit, or None if there is none here."""
    found = shutil.which(os.environ.get("RT", "rt"))
    folder = pathlib.Path(found).resolve().parent.parent if found else None
    return folder if folder and (folder / "KIT-ID").exists() and (folder / "rlibs").is_dir() else None


def uses_of(kit, name):
    """The crates below one of the kit: the first lines of its library, which are text, name them."""
    head = (kit / "rlibs" / f"{name}.rlib/format").read_bytes().split(b"\n")
    lines = itertools.takewhile(lambda line: line.startswith(b"dep "), itertools.dropwhile(lambda line: not line.startswith(b"dep "), head))
    return [line.split()[1].decode() for line in lines]


def crates_below(kit):
    """The toolchain's crates below the program: all of them, or without a kit those that crates.txt names."""
    own, found, left = used(), set(), ["aggregator"]
    while left:
        name = left.pop()
        if name not in found:
            found.add(name)
            left += own[name] if name in own else uses_of(kit, name) if kit else []
    return sorted(found - set(own))


# ---- what the kit says of each ----


def words_from(text, start):
    """The words of a text from these on, a blank between any two."""
    joined = " ".join(text.replace("\n//", "\n").split())
    return joined[joined.index(start):] if start in joined else ""


def kind_of(path):
    """Which licence a text is."""
    text = path.read_text(encoding="utf-8")
    for kind, start in (("Unicode-3.0", "UNICODE LICENSE V3"), ("Apache-2.0", "Apache License Version 2.0"), ("MIT", PERMISSION)):
        if words_from(text, start):
            return kind
    sys.exit(f"{path} is a licence that tools/licences.py doesn't know")


def licence_of(files):
    """The licences of these texts: that of MIT or that of Apache where a crate has both by these names, and all others."""
    kinds = {file.name: kind_of(file) for file in files}
    parts = []
    if {"LICENSE-MIT", "LICENSE-APACHE"} <= set(kinds):
        del kinds["LICENSE-MIT"], kinds["LICENSE-APACHE"]
        parts.append("(MIT OR Apache-2.0)" if kinds else "MIT OR Apache-2.0")
    return " AND ".join([*parts, *sorted(set(kinds.values()))])


def copyrights_of(files):
    """Whose copyright these texts say it is."""
    lines = [line.strip() for file in files if kind_of(file) != "Apache-2.0" for line in file.read_text(encoding="utf-8").splitlines()]
    return list(dict.fromkeys(re.sub(r"^Copyright (?:\(c\) |© )?", "", line) for line in lines if re.match(r"Copyright .*\w", line)))


def after_of(folder, name):
    """The Rust crates that a crate follows, with the versions that its page says."""
    page = (folder / WITHIN.get(name, "README.md")).read_text(encoding="utf-8")
    said = []
    for crate in AFTER.get(name, dict.fromkeys([name, name.replace("_", "-")])):
        before = BEFORE_VERSION.get(crate, rf"(?<![\w-]){re.escape(crate)}`?")
        if version := re.search(rf"{before} (\d+\.\d+\.\d+)\b", page):
            said.append(f"`{crate}` {version[1]}")
    return ", ".join(said)


def crate_of(kit, name):
    folder = kit / "rattle" / name
    files = sorted(folder.glob("LICENSE*"))
    if name in WITHIN and not words_from((folder / WITHIN[name]).read_text(encoding="utf-8"), PERMISSION):
        sys.exit(f"{folder / WITHIN[name]} has no notice, or another than MIT's")
    after = after_of(folder, name) if (folder / WITHIN.get(name, "README.md")).exists() and (files or name in WITHIN) else ""
    return Crate(name, after + (", in a part" if name in WITHIN else ""), licence_of(files), copyrights_of(files))


# ---- what is written ----


def text_of(kit, crates, kind):
    """The text of a licence, which has to be the same in all crates that have it, but for whose copyright it is."""
    files = [file for crate in crates for file in sorted((kit / "rattle" / crate.name).glob("LICENSE*")) if kind_of(file) == kind]
    start = {"MIT": PERMISSION, "Unicode-3.0": "UNICODE LICENSE V3"}[kind]
    texts = {words_from(file.read_text(encoding="utf-8"), start) for file in files}
    if len(texts) != 1:
        sys.exit(f"the kit has {len(texts)} texts of {kind}, and tools/licences.py writes one")
    lines = files[0].read_text(encoding="utf-8")
    parts = re.split(r"\n\s*\n", lines[lines.index(start.split(",")[0]):].strip())
    return "\n.\n".join(textwrap.fill(" ".join(part.split()), 77, break_on_hyphens=False) for part in parts)


def table_of_licences(crates):
    def names(licence):
        return ", ".join(f"`{crate.name}`" for crate in crates if crate.licence == licence)

    licences = sorted({crate.licence for crate in crates}, key=lambda licence: (not licence, licence))
    return LICENCES + "".join(f"| {f'`{licence}`' if licence else NONE} | {names(licence)} |\n" for licence in licences)


def table_of_crates(crates):
    rows = (f"| `{it.name}` | {it.after} | {f'`{it.licence}`' if it.licence else NONE} | {'; '.join(it.copyrights)} |\n" for it in crates)
    return CRATES + re.sub(r"(?<=\|)  (?=\|)", " ", "".join(rows))


def page_with(text, crates):
    """The page with the tables of these crates."""
    for head, table in ((LICENCES, table_of_licences(crates)), (CRATES, table_of_crates(crates))):
        text = re.sub(re.escape(head) + r"(?:\|.*\n)*", lambda _, table=table: table, text)
    return text


def paragraph(**fields):
    """A paragraph of machine-readable copyright: each field by its name, with its further lines indented."""
    return "".join(f"{name}: {text}\n".replace("\n", "\n ").rstrip() + "\n" for name, text in fields.items() if text)


def debian_name(licence):
    return re.sub(r"\((.*)\) AND ", r"\1, and ", licence).replace(" OR ", " or ").replace(" AND ", " and ").replace(" WITH ", " with ")


def crate_paragraphs(crates):
    """A paragraph for all crates of one licence and of the same people."""
    def group_of(crate):
        return not crate.licence, crate.licence, crate.copyrights

    for (is_without, licence, copyrights), group in itertools.groupby(sorted(crates, key=group_of), group_of):
        group = list(group)
        after = {crate.name: crate.after.replace("`", "") for crate in group}
        whose = copyrights or [MAKERS if is_without else f"the authors of {', '.join(after.values())}, whose licences name nobody"]
        comment = "; ".join(f"{name} is after {after[name]}, whose license is MIT and names nobody" for name in after if name in WITHIN)
        yield paragraph(Files="\n".join(f"rattle/{name}/*" for name in after), Copyright="\n".join(whose),
                        License=debian_name(licence) or "unstated", Comment=comment)


def copyright_text(kit, crates):
    """Debian's machine-readable copyright of the program and of what is in it."""
    name = (kit / "KIT-ID").read_text().split()[0]
    head = paragraph(Format="https://www.debian.org/doc/packaging-manuals/copyright-format/1.0/", **{"Upstream-Name": "Maplewrench"},
                     Comment="The program aggregator has in it the crates below rattle/ and the objects\n"
                             f"below c/ and toolchain/ of the Rattle toolchain ({name}). Written by\ntools/licences.py of the repository.")
    ours = paragraph(Files="*", Copyright="2026 the authors of Maplewrench", License="Apache-2.0")
    objects = (paragraph(Files=files.replace(" ", "\n"), Copyright=whose, License=debian_name(licence), Comment=comment)
               for files, whose, licence, comment in OBJECTS)
    texts = {**{kind: text_of(kit, crates, kind) for kind in ("MIT", "Unicode-3.0")}, **TEXTS_ELSEWHERE}
    licences = (paragraph(License=f"{debian_name(licence)}\n{text}") for licence, text in texts.items())
    return "\n".join([head, ours, *crate_paragraphs(crates), *objects, *licences])


def missing(crates):
    """The crates without a row in the page or without a paragraph in the file."""
    page, known = PAGE.read_text(encoding="utf-8"), COPYRIGHT.read_text(encoding="utf-8")
    table = page[page.index(CRATES):] if CRATES in page else ""
    return [name for name in crates if f"\n| `{name}` |" not in table or f" rattle/{name}/*\n" not in known]


def main():
    is_check = "--check" in words_of(__doc__, options=["--check"])
    kit = kit_folder()
    names = crates_below(kit)
    if is_check and (without := missing(names)):
        sys.exit(f"docs/LICENCES.md and deploy/copyright lack what is in the program: {', '.join(without)}; run tools/licences.py")
    if not kit:
        sys.exit(0 if is_check else "tools/licences.py: there is no kit: `rt` isn't on the PATH, and $RT doesn't name it")
    crates = [crate_of(kit, name) for name in names]
    for path, new in ((PAGE, page_with(PAGE.read_text(encoding="utf-8"), crates)), (COPYRIGHT, copyright_text(kit, crates))):
        if is_check and path.read_text(encoding="utf-8") != new:
            sys.exit(f"{path.relative_to(TOP)} isn't as crates.txt and the kit have it; run tools/licences.py")
        if not is_check:
            path.write_text(new, encoding="utf-8")


if __name__ == "__main__":
    main()
