"""What is left out of the script of a page means nothing: the words, texts and signs of it are those of its parts, in their order. And what
a page takes for itself stays small."""
import os
from pathlib import Path

from browser import Checks, make_page
from plugin.page.squeeze import squeeze_script, squeeze_style, tokens
from plugin.page.whole import SCRIPTS, STYLES

MOST_OF_ITS_OWN = 92_000
SAMPLES = [
    ("a = b / c / d; // what\n", "a=b / c / d;// what\n"),
    ("  // all of it\n  x = y ? ' : ' : \"' = '\";\n", "x=y?' : ':\"' = '\";\n"),
    ("return /[\", '\\/]+ = /.test(s) && a - -1 + +b\n", "return /[\", '\\/]+ = /.test(s)&&a - -1 + +b\n"),
]


def meaning(script):
    return [token for token in tokens(script) if not token.isspace() and not token.startswith("//")]


def main():
    checks = Checks()
    folder = Path(os.environ["ROOT"]) / "page"
    for name in SCRIPTS:
        script = (folder / name).read_text(encoding="utf-8")
        checks.same(name, meaning(squeeze_script(script)), meaning(script))
    for written, wanted in SAMPLES:
        checks.same(repr(written), squeeze_script(written), wanted)
    style = (folder / STYLES[0]).read_text(encoding="utf-8")
    checks.same("the style", *("".join(text.split()).replace(";}", "}") for text in (squeeze_style(style), style)))
    make_page("page.html", "examples/repeated.json")
    size = os.path.getsize("page.html")
    checks.true("the page of nothing has %d bytes" % size, size <= MOST_OF_ITS_OWN)
    checks.end()


main()
