"""Reads the worked examples of crates/mc_tests, for the scripts that run a built program on them."""
import glob
import os
import re
from typing import NamedTuple

# An example. Its input and its output are texts, or else names of constants of the same file.
TEXT = r'"(?:[^"\\]|\\[nrt0"\\]|\\\n\s*)*"'
CONSTANT = re.compile(rf"const (\w+): &str =\s*({TEXT});")
EXAMPLE = rf"Example \{{\s*name: ({TEXT}),\s*words: &\[\s*((?:{TEXT},?\s*)+)\],\s*input: (%s),\s*output: (%s),\s*status: (\d+),\s*errors: ({TEXT}),\s*\}}"
ESCAPED = {"n": "\n", "r": "\r", "t": "\t", "0": "\0"}


class Ran(NamedTuple):
    """What a run printed, its status, and its errors."""
    output: bytes
    status: int
    errors: bytes


class Example(NamedTuple):
    """An input: the file that it stands in, its name, the options, its bytes, and what is wanted."""
    file: str
    name: str
    options: list
    script: bytes
    wanted: Ran


def plain(text):
    """The characters of a text. A line that ends in a backslash goes on with the first word of the next one."""
    return re.sub(r"\\(\s+|.)", lambda it: "" if it[1].isspace() else ESCAPED.get(it[1], it[1]), text[1:-1])


def bytes_of(text):
    """The bytes of a text in which a bar stands for CR LF."""
    return plain(text).replace("|", "\r\n").encode()


def examples(fail):
    """All worked examples, file by file. `fail` gets a line that names the first one that can't be read, and must not return."""
    top = os.path.dirname(os.path.dirname(os.path.abspath(__file__)))
    for path in sorted(glob.glob(f"{top}/crates/mc_tests/src/**/*.rt", recursive=True)):
        with open(path, encoding="utf-8") as it:
            source = it.read()
        constants = dict(CONSTANT.findall(source))
        text = "|".join([TEXT, *constants])
        form = re.compile(EXAMPLE % (text, text))
        for begun in re.finditer(r"(?<!struct )\bExample \{", source):
            found = form.match(source, begun.start())
            if not found:
                line = source.count("\n", 0, begun.start()) + 1
                fail(f"{path}:{line}: an Example that scripts/worked_examples.py can't read")
            name, words, given, printed, status, errors = found.groups()
            options = [plain(it) for it in re.findall(TEXT, words)][1:]
            wanted = Ran(bytes_of(constants.get(printed, printed)), int(status), plain(errors).encode())
            yield Example(os.path.basename(path), plain(name), options, bytes_of(constants.get(given, given)), wanted)
