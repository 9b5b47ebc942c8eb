"""The files of definitions to which the imports of one lead, for the scripts beside it. Names of the code
(`specs.declared`) are followed no further: they are enums and structs."""

import re
from pathlib import Path

CRATES = Path(__file__).resolve().parents[2] / "crates"
IMPORT = re.compile(r"^\s*(?:pub )?use Rattle\.([a-z_]+)\.specs\.([A-Za-z.]+?)(?:\.\{| as |\s*$)", re.M)


def imported(text):
    """The files of this repository that a file of definitions imports, as `crate/specs/File`."""
    for crate, module in IMPORT.findall(text):
        if (CRATES / crate).is_dir() and not module.startswith("declared."):
            yield f"{crate}/specs/{module.replace('.', '/')}"


def followed(name, texts=None):
    """The text of a file and of each to which its imports lead, each after those that it imports."""
    texts = {} if texts is None else texts
    if name not in texts:
        text = (CRATES / f"{name}.antt").read_text(encoding="utf-8")
        for one in imported(text):
            followed(one, texts)
        texts[name] = text
    return texts
