"""Checks of what WCAG 2.2, level AA, asks of a page and a program can see, in the browser as it shows the page.

    faults(browser)     what is wrong with the page as it stands, each with the number of the criterion
"""
# Each criterion is a function of the page, which gives a text for each fault.
SCRIPT = r"""
const faults = [];
const seen = made => made.getClientRects().length > 0 && getComputedStyle(made).visibility !== 'hidden' && !made.closest('.unseen');
const all = selector => Array.from(document.querySelectorAll(selector)).filter(seen);
const said = made => '<' + made.tagName.toLowerCase() + ' ' + (made.id || made.getAttribute('class') || '') + '> '
    + (made.getAttribute('aria-label') || made.textContent || '').trim().slice(0, 40);
const fault = (criterion, made, text) => faults.push(criterion + ' ' + said(made) + ': ' + text);

// 1.4.3, 1.4.11: contrasts.
const numbers = colour => (colour.match(/[\d.]+/g) || [0, 0, 0, 0]).map(Number);
const isClear = colour => colour === 'none' || colour === 'transparent' || numbers(colour)[3] === 0;
const light = colour => numbers(colour).slice(0, 3).map(value => value / 255)
    .map(value => value <= 0.04045 ? value / 12.92 : ((value + 0.055) / 1.055) ** 2.4)
    .reduce((sum, value, place) => sum + value * [0.2126, 0.7152, 0.0722][place], 0);
const contrast = (one, other) => {
    const [low, high] = [light(one), light(other)].sort((a, b) => a - b);
    return (high + 0.05) / (low + 0.05);
};
const behind = made => {
    const shape = made.namespaceURI.endsWith('svg') && made.parentNode.querySelector(':scope > rect');
    if (shape && !isClear(getComputedStyle(shape).fill)) return getComputedStyle(shape).fill;
    for (let at = made; at && at.nodeType === 1; at = at.parentNode) {
        const colour = getComputedStyle(at).backgroundColor;
        if (!isClear(colour)) return colour;
    }
    return 'rgb(255, 255, 255)';
};
const walker = document.createTreeWalker(document.body, NodeFilter.SHOW_TEXT);
for (let node; (node = walker.nextNode()); ) {
    const made = node.parentElement;
    if (!node.data.trim() || !seen(made) || made.closest('title, option, script, :disabled')) continue;
    const style = getComputedStyle(made), size = parseFloat(style.fontSize);
    const least = size >= 24 || size >= 18.66 && style.fontWeight >= 700 ? 3 : 4.5;
    const found = contrast(made.namespaceURI.endsWith('svg') ? style.fill : style.color, behind(made));
    if (found < least) fault('1.4.3', made, 'contrast ' + found.toFixed(2));
}
for (const made of all('input:not([type=checkbox]), select, textarea')) {
    const found = contrast(getComputedStyle(made).borderTopColor, behind(made.parentNode));
    if (found < 3) fault('1.4.11', made, 'the contrast of its edge is ' + found.toFixed(2));
}

// 1.3.1: tables have names and heads, fields have labels, headings do not leave out a level.
for (const made of all('table')) {
    if (!made.caption && !made.getAttribute('aria-label')) fault('1.3.1', made, 'a table without a name');
    if (!made.querySelector('th')) fault('1.3.1', made, 'a table without heads');
}
for (const made of all('th')) {
    if (!made.scope && made.textContent.trim() && !made.classList.contains('corner')) fault('1.3.1', made, 'a head of nothing');
}
for (const made of all('input, select, textarea')) {
    if (!made.labels.length && !made.getAttribute('aria-label')) fault('1.3.1', made, 'a field without a label');
}
let level = 0;
for (const made of all('h1, h2, h3, h4')) {
    if (Number(made.tagName[1]) > level + 1) fault('1.3.1', made, 'a heading of level ' + made.tagName[1] + ' below one of ' + level);
    level = Number(made.tagName[1]);
}
for (const name of ['main', 'header', 'h1']) if (all(name).length !== 1) faults.push('1.3.1 ' + all(name).length + ' elements ' + name);

// 1.4.10: nothing makes the page wider than the window.
if (document.documentElement.scrollWidth > innerWidth) faults.push('1.4.10 the page is ' + document.documentElement.scrollWidth + ' wide');

// 2.1.1: what scrolls can be reached by keys. 2.4.3: the order is that of the page.
for (const made of all('*')) {
    const style = getComputedStyle(made);
    const isLarger = made.scrollHeight > made.clientHeight + 1 || made.scrollWidth > made.clientWidth + 1;
    const scrolls = /auto|scroll/.test(style.overflowX + style.overflowY) && isLarger && made !== document.documentElement;
    if (scrolls && made.tabIndex < 0 && !made.querySelector('button, [tabindex="0"], a')) fault('2.1.1', made, 'scrolls, but not by keys');
    if (made.tabIndex > 0) fault('2.4.3', made, 'has a place of its own in the order');
}

// 2.5.8: targets of 24 pixels. A link within a sentence is none, and what is the whole of its label is as large as that.
for (const made of all('button, a[href], input, select, summary, [role=button], tr[tabindex], td[aria-label]')) {
    const box = (made.type === 'checkbox' ? made.labels[0] : made).getBoundingClientRect();
    if (Math.min(box.width, box.height) < 23.9) fault('2.5.8', made, Math.round(box.width) + ' by ' + Math.round(box.height));
}

// 2.5.3: who says what stands on a button means that button.
for (const made of all('button[aria-label], a[aria-label]')) {
    const text = made.textContent.trim();
    if (/[a-z]{2}/i.test(text) && !made.getAttribute('aria-label').includes(text))
        fault('2.5.3', made, 'is called otherwise than it reads');
}

// 3.1.1, 2.4.2 and 4.1.2: the language and the title, names that are there once.
if (!document.documentElement.lang) faults.push('3.1.1 no language');
if (!document.title) faults.push('2.4.2 no title');
const names = Array.from(document.querySelectorAll('[id]'), made => made.id);
for (const name of names) if (names.indexOf(name) !== names.lastIndexOf(name)) faults.push('4.1.2 twice the id ' + name);
for (const made of all('td[tabindex], tbody td')) {
    if (made.closest('[role=grid]') && made.textContent && !made.getAttribute('aria-label')) fault('4.1.2', made, 'a cell without a label');
}
for (const made of all('[aria-controls], [aria-labelledby], [aria-describedby]')) {
    for (const name of ['aria-controls', 'aria-labelledby', 'aria-describedby']) {
        for (const id of (made.getAttribute(name) || '').split(' ').filter(Boolean))
            if (!names.includes(id)) fault('4.1.2', made, name + ' names nothing');
    }
}
return Array.from(new Set(faults));
"""

# The roles that need a name, as the browser tells them to a screen reader.
NAMED = {"button", "link", "checkbox", "combobox", "textbox", "searchbox", "spinbutton", "grid", "table", "image", "img", "region",
         "ComboBoxSelect", "listbox"}


def nameless(browser):
    """What a screen reader is told of without a name."""
    browser.devtools("Accessibility.enable", {})
    nodes = browser.devtools("Accessibility.getFullAXTree", {})["nodes"]
    browser.devtools("Accessibility.disable", {})
    found = [node for node in nodes if not node.get("ignored") and node.get("role", {}).get("value") in NAMED]
    return ["4.1.2 a %s without a name" % node["role"]["value"] for node in found if not node.get("name", {}).get("value")]


def focus_faults(browser, tab, count):
    """2.4.7 and 2.4.11: what has the focus by the key Tab shows that it has, and nothing covers it."""
    found = []
    for _ in range(count):
        browser.keys(tab)
        fault = browser.run("""
            const made = document.activeElement;
            if (!made || made === document.body) return '';
            const style = getComputedStyle(made), box = made.getBoundingClientRect();
            const name = made.tagName + ' ' + (made.getAttribute('aria-label') || made.textContent).slice(0, 40);
            if (style.outlineStyle === 'none' || parseFloat(style.outlineWidth) < 2) return '2.4.7 the focus is not seen: ' + name;
            const across = Math.min(innerWidth - 1, box.left + Math.min(box.width, 40) / 2);
            const at = document.elementFromPoint(across, box.top + box.height / 2);
            const seen = at && (made.contains(at) || at.contains(made) || at.closest('label'));
            return seen ? '' : '2.4.11 what has the focus is covered: ' + name;
        """)
        found += [fault] if fault else []
    return found


def faults(browser):
    """What is wrong with the page as it is shown now."""
    return browser.run(SCRIPT) + nameless(browser)
