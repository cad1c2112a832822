"""Whether what the documents name is there: the files and headings that they link to, the paths, crates, proofs and modules between backticks, and the
definitions that they explain, in bold."""
import os
import re

LINK = re.compile(r"\[[^\]]*\]\(([^)\s]+)\)")
NAMED = re.compile(r"`([^`\n]+)`")
PATH = re.compile(r"(?:\./)?(?:docs|sdk|bench|examples|crates|\.ci)/[\w./-]*\w")
CRATE = re.compile(r"dc_[a-z0-9_]+")
MODULE = re.compile(r"(?:\w+/)*\w+\.(?:antt|rt)")
# Something of a crate: "`entry` of `dc_course`", or "`entry` (`dc_course`)".
OWNED = re.compile(r"`([\w:./]+)` (?:of|in|\() ?`?(dc_[a-z0-9_]+)\b")
BOLD = re.compile(r"\*\*([^*]+)\*\*")
# A name of code, as no word of prose is written.
CODED = re.compile(r"\w*(?:_|[a-z][A-Z])\w*")
WORD = re.compile(r"[\w-]+")
FENCE = re.compile(r"^```.*?^```$", re.MULTILINE | re.DOTALL)
# What a build makes, and what stands in no file of its own.
MADE = ("crates/dc_main/out",)


def sources_below(folder):
    """The sources in a folder of crates, without what was built of them."""
    for inner, folders, names in os.walk(folder):
        folders[:] = [name for name in folders if name != "out"]
        yield from (os.path.join(inner, name) for name in names if name.endswith((".rt", ".antt", ".edit")))


def slug(heading):
    """The anchor of a heading, as the pages show it."""
    return re.sub(r"[^\w\- ]", "", heading.strip().lower()).replace(" ", "-")


def headings(text):
    return {slug(line.lstrip("#")) for line in text.splitlines() if line.startswith("#")}


def read(path):
    with open(path, encoding="utf-8") as file:
        return file.read()


class Tree:
    """What there is to point at."""

    def __init__(self, top):
        self.top = top
        self.crates = {line.split(":")[0] for line in read(f"{top}/crates.txt").splitlines()}
        self.files = set(sources_below(f"{top}/crates"))
        self.words = {}

    def has_link(self, page, target):
        """Whether a link of a page leads to a file, and to a heading of it."""
        path, _, anchor = target.partition("#")
        path = os.path.normpath(os.path.join(os.path.dirname(page), path)) if path else page
        return os.path.exists(path) and (not anchor or anchor in headings(read(path)))

    def has_name(self, name):
        """Whether what a name between backticks names is there, where it is a path, a crate or a module."""
        if PATH.fullmatch(name):
            return name.startswith(MADE) or os.path.exists(os.path.join(self.top, name))
        if CRATE.fullmatch(name):
            return name in self.crates
        if MODULE.fullmatch(name):
            return any(file.endswith(f"/{name}") for file in self.files)
        return True


    def words_of(self, crate):
        """The words in the sources of a crate."""
        if crate not in self.words:
            self.words[crate] = {word for file in sources_below(f"{self.top}/crates/{crate}") for word in WORD.findall(read(file))}
        return self.words[crate]

    def unknown(self, names):
        """Which of these names of code no crate has."""
        return [name for name in names if CODED.fullmatch(name) and not any(name in self.words_of(crate) for crate in self.crates)]

    def owns(self, crate, name):
        """Whether a crate has a folder or a file of this name, or the last word of it anywhere."""
        if name.endswith("/"):
            return os.path.isdir(f"{self.top}/crates/{crate}/{name}")
        if MODULE.fullmatch(name):
            return any(file.endswith(f"/{name}") for file in self.files if f"/crates/{crate}/" in file)
        return re.split(r"::|\.", name)[-1] in self.words_of(crate)


def dangling(top):
    """What the documents name that is not there, each with its page."""
    tree = Tree(top)
    pages = [f"{top}/README.md", *sorted(f"{top}/docs/{name}" for name in os.listdir(f"{top}/docs") if name.endswith(".md"))]
    for page in pages:
        text = FENCE.sub("", read(page))
        links = [target for target in LINK.findall(text) if "://" not in target and not tree.has_link(page, target)]
        names = [name for name in NAMED.findall(text) if not tree.has_name(name)]
        owned = [f"{name} of {crate}" for name, crate in OWNED.findall(re.sub(r"\s+", " ", text)) if not tree.owns(crate, name)]
        bold = tree.unknown(name for names_in_bold in BOLD.findall(text) for name in re.split(r",\s+", names_in_bold))
        for what in dict.fromkeys([*links, *names, *owned, *bold]):
            yield f"{os.path.relpath(page, top)} names {what}, which is not there"
