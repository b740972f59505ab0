import re
import sys
from pathlib import Path

DOCUMENTS = ["README.md", "CONTRIBUTING.md", *sorted(str(p) for p in Path("docs").glob("*.md"))]
CRATES = {line.split(":")[0].split()[0] for line in Path("crates.txt").read_text().splitlines() if line and line[0] != "#"}
FILE = re.compile(r"^[\w./-]+\.(rt|antt|md|sh|py|simba|transcript|edit|txt)$")
FOLDER = re.compile(r"^[\w.-]+(/[\w.-]+)*/$")
faults = []


def paths(text):
    """What a document names between back quotes or as the target of a link."""
    for found in re.finditer(r"`([^`\n]+)`|\]\(([^)#\s]+)", text):
        yield (found.group(1) or found.group(2)).strip()


def is_there(name, document, folder):
    if "NAME" in name or "MODULE" in name or "FUNCTION" in name or name in ("specs/", "proofs/"):
        return True
    tries = [Path(name), Path(document).parent / name, Path("crates") / name]
    if folder:
        tries.append(folder / name)
    return any(p.exists() for p in tries)


for document in DOCUMENTS:
    folder = None
    for number, line in enumerate(Path(document).read_text().splitlines(), 1):
        for name in paths(line):
            if "://" in name or name.startswith("/"):
                continue
            if not (FILE.match(name) or FOLDER.match(name)):
                continue
            if "/" not in name and not Path(name).exists() and folder is None:
                continue
            if not is_there(name, document, folder):
                faults.append(f"{document}:{number}: {name} isn't there")
            first = name.split("/")[0]
            if first in CRATES and "/" in name:
                folder = Path("crates") / Path(name).parent
        if not line.strip():
            folder = None

ARCHITECTURE = "docs/ARCHITECTURE.md"
text = Path(ARCHITECTURE).read_text()
drawing = set(re.findall(r"\w+", text.split("```")[1]))
for crate in sorted(CRATES):
    if not re.search(rf"\b{crate}\b", text):
        faults.append(f"{ARCHITECTURE}: the crate {crate} isn't on the map")
    elif crate not in drawing and not re.search(r"_(tests|bench|kit|rows)$", crate):
        faults.append(f"{ARCHITECTURE}: the crate {crate} isn't in the drawing")
for word in sorted(drawing - CRATES):
    if "_" in word:
        faults.append(f"{ARCHITECTURE}: the drawing has {word}, which is no crate")
for document in ("README.md", ARCHITECTURE):
    for crate in re.findall(r"^\| `(\w+)` \|", Path(document).read_text(), re.M):
        if "_" in crate and crate not in CRATES:
            faults.append(f"{document}: {crate} is no crate")

print("\n".join(faults) if faults else "documents: what they name is there")
sys.exit(1 if faults else 0)
