"""np.html in a browser, for its cases: how lists are given to it, and how it is asked.

    with asking() as browser:
        drop(browser, "now", "examples/shop.json")
        answer(browser, "explain", "shop/web[Deployment]", "192.0.2.1")
"""
import os
import time
from contextlib import contextmanager
from pathlib import Path

from browser import Browser

PATIENCE = 60


@contextmanager
def asking():
    """A browser in which np.html is open and ready."""
    with Browser() as browser:
        browser.open(os.environ["ROOT"] + "/dist/np.html")
        await_true(browser, "document.body.dataset.ready")
        yield browser


def await_true(browser, holds):
    """Waits until an expression of the page holds, and returns its value."""
    end = time.time() + PATIENCE
    while time.time() < end:
        value = browser.run("return " + holds)
        if value:
            return value
        time.sleep(0.02)
    raise SystemExit("np.html: this does not come: " + holds)


def drop(browser, side, *paths):
    """Drops files on the page, as a person does."""
    files = [[Path(path).name, Path(path).read_text(encoding="utf-8")] for path in paths]
    browser.run("""
        const dropped = new DataTransfer();
        for (const [name, text] of arguments[1]) dropped.items.add(new File([text], name));
        const zone = document.querySelector('.drop[data-side=' + arguments[0] + ']');
        zone.dispatchEvent(new DragEvent('drop', { bubbles: true, cancelable: true, dataTransfer: dropped }));
    """, side, files)


def show(browser, side, *paths):
    """Drops files, and waits until the page shows them."""
    drop(browser, side, *paths)
    await_true(browser, "!document.body.classList.contains('stale') && page && page.title[0].includes('%s')" % Path(paths[-1]).name)


def refusal(browser, *paths):
    """Drops files that np refuses: what the page says of them, the status, and the objects that it shows."""
    browser.run("document.getElementById('fault').hidden = true")
    drop(browser, "now", *paths)
    await_true(browser, "!document.getElementById('fault').hidden")
    status = browser.run("return document.querySelector('#fault .ended').dataset.status")
    return browser.texts("#fault .fault")[0], status, browser.texts("#fault summary")


def answer(browser, command, *values):
    """Asks by the form of a command, whose fields get these values: the report, what was said, the status, and the line to type."""
    browser.run("change({ view: 'ask' })")
    browser.click("button[data-command=%s]" % command)
    browser.run("""
        document.querySelector('.answers').replaceChildren();
        document.querySelectorAll('.ask-form input, .ask-form select, .ask-form textarea').forEach((field, place) => {
            field.value = arguments[0][place];
        });
    """, values)
    browser.click(".ask-form button[type=submit]")
    return answered(browser)


def answered(browser):
    """What is answered, once it is there."""
    status = await_true(browser, "document.querySelector('.answers .ended') && document.querySelector('.answers .ended').dataset.status")
    texts = browser.texts(".answers .report"), browser.texts(".answers .said, .answers .fault")
    return "".join(texts[0]), "".join(texts[1]), int(status), browser.texts(".answers .line")[0]
