// Elements of the page. Texts only ever become text nodes and attributes, and never markup.

function fill(made, attributes, children) {
    for (const name of Object.keys(attributes || {})) {
        const value = attributes[name];
        if (typeof value === 'function') made.addEventListener(name, value);
        else if (value === true) made.setAttribute(name, '');
        else if (value !== false && value !== undefined && value !== null) made.setAttribute(name, value);
    }
    for (const child of children) {
        if (child !== null && child !== undefined && child !== false && child !== 0) made.append(child);
    }
    return made;
}

function element(name, attributes, ...children) { return fill(document.createElement(name), attributes, children); }

// What names the two ends of a cell, a row or a box.
function endsKey(from, to) { return from + ' => ' + to; }

function drawing(name, attributes, ...children) {
    return fill(document.createElementNS('http://www.w3.org/2000/svg', name), attributes, children);
}

// A text whose lines may end behind a comma or a slash, or before a bracket, so that addresses and kinds are not broken within.
function breakable(text) {
    const parts = text.match(/\[?[^,\/[]+[,\/]?|[,\/[]/g) || [];
    return [].concat(...parts.map((part, place) => place ? [document.createElement('wbr'), part] : [part]));
}

function hint(text) { return element('p', { class: 'hint' }, text); }

// A view: what it is called, its heading, what stands beside that, and what is in it.
function viewSection(kind, label, heading, beside, ...children) {
    return element('section', { class: kind, 'aria-label': label },
        element('div', { class: 'bar' }, element('h2', {}, heading), ...beside), ...children);
}

// How much a view has, which is told anew when that changes.
function told(text) { return element('span', { class: 'count', role: 'status' }, text); }

// Lines of np.
function codeLines(lines) { return element('ul', { class: 'rows' }, ...lines.map(line => element('li', {}, element('code', {}, line)))); }

// What a key does that stands for a click.
function byKey(open) {
    return event => { if (event.key === 'Enter' || event.key === ' ') { event.preventDefault(); open(); } };
}

function count(number, one, many) { return number.toLocaleString('en') + ' ' + (number === 1 ? one : many); }

// Puts a text on the clipboard. Where the browser does not let a page do that, the text is shown, marked, to be copied by hand.
async function copyText(text, button) {
    const label = button.textContent;
    let done = false;
    try {
        await navigator.clipboard.writeText(text);
        done = true;
    } catch (error) {
        done = copyByHand(text);
    }
    button.textContent = done ? 'Copied' : 'Press Ctrl+C';
    setTimeout(() => { button.textContent = label; }, 1500);
}

function copyByHand(text) {
    const area = element('textarea', { class: 'by-hand', 'aria-label': 'Text to copy' });
    area.value = text;
    document.body.append(area);
    area.select();
    let done = false;
    try { done = document.execCommand('copy'); } catch (error) { done = false; }
    if (done) area.remove();
    else area.addEventListener('blur', () => area.remove());
    return done;
}

function copyButton(label, text) {
    const copy = event => copyText(typeof text === 'function' ? text() : text, event.currentTarget);
    return element('button', { type: 'button', class: 'copy', click: copy }, label);
}

// The head of a table of rows, which stands on each sheet of paper anew, and there says what the page is of.
function rowsHead(names) {
    return element('thead', {},
        element('tr', { class: 'running' }, element('td', { colspan: names.length }, sheetText(app))),
        element('tr', {}, ...names.map(name =>
            element('th', { scope: 'col' }, name || element('span', { class: 'unseen' }, 'what passes')))));
}

// A text of at most so many letters: what stands in its middle is left out, since names mostly differ at their ends.
function cutMiddle(text, most) {
    const letters = Array.from(text);
    if (letters.length <= most) return text;
    const end = Math.floor((most - 1) / 2);
    return letters.slice(0, most - 1 - end).join('') + '…' + letters.slice(letters.length - end).join('');
}
