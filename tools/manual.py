"""The man page of libpgserial, as its header says it."""

import re
from typing import Iterator, List, Tuple

NAME = "libpgserial \\- pgserial's calls without a process of its own"
# What stands between comments and declarations, and is neither.
AROUND = re.compile(r"^(#ifn?def|#endif|#include|#define PGSERIAL_H$|extern \"C\" \{|\}$).*$", re.M)


def roff(text: str) -> str:
    """A text as it is written in a man page."""
    text = text.replace("\\", "\\e").replace("-", "\\-")
    return "\n".join("\\&" + line if line.startswith((".", "'")) else line for line in text.splitlines())


def paragraphs(comment: str) -> List[str]:
    """What a comment says: its paragraphs."""
    text = re.sub(r"^ ?\*(?: |$)", "", comment, flags=re.M).strip()
    return [" ".join(each.split()) for each in re.split(r"\n\s*\n", text)]


def parts(header: str) -> Iterator[Tuple[str, str]]:
    """Each comment that stands at a line's beginning, and the declarations behind it."""
    for part in re.split(r"^(?=/\*)", header, flags=re.M)[1:]:
        comment, _, code = part[2:].partition("*/")
        yield comment, AROUND.sub("", code).strip("\n")


def page(header: str, version: str) -> str:
    """The man page of a header."""
    lines = [f'.TH LIBPGSERIAL 3 "" "{version}"', ".SH NAME", NAME, ".SH SYNOPSIS", ".B #include <pgserial.h>", ".PP",
             ".B cc FILE.c $(pkg\\-config \\-\\-cflags \\-\\-libs pgserial)", ".SH DESCRIPTION"]
    for place, (comment, code) in enumerate(parts(header)):
        said = paragraphs(comment)
        if place == 0:
            said = said[1:]
        if said and said[0].startswith("---- "):
            lines.append(".SH " + roff(said.pop(0)[len("---- ") :].upper()))
        if code.strip():
            lines += [".PP", ".nf", roff(re.sub(r"\n{2,}", "\n", code)), ".fi"]
        for each in said:
            lines += [".PP", roff(each)]
    return "\n".join(lines) + "\n"
