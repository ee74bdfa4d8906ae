// What all pictures have: how large they are shown, and how they are saved as a file.

const ZOOMS = ['50', '75', '100', '125', '150', '200'];
// A saved picture is light, and needs no style but this one.
const PICTURE_STYLE = 'svg{background:#fff;font:13px monospace}text{fill:#17202b}rect{fill:#f4f6f9;stroke:#5b6776}'
    + '.outside rect{stroke-dasharray:5 3}.line{fill:none;stroke:#5b6776;stroke-width:1.3;stroke-dasharray:6 3}'
    + '.line.all{stroke:#1d5fae;stroke-width:2.6;stroke-dasharray:none}'
    + '.centre rect{fill:#1d5fae}.centre text{fill:#fff}.side-text,.passes{fill:#5b6776}.frame{fill:none}.arrow{fill:#5b6776}';

function zoomControl(app) {
    const place = Math.max(0, ZOOMS.indexOf(app.state.zoom));
    const step = (sign, label, next) => element('button', {
        type: 'button',
        'aria-label': label,
        title: label,
        'data-key': label,
        disabled: !ZOOMS[next],
        click: () => app.change({ zoom: ZOOMS[next] }),
    }, sign);
    return element('span', { class: 'zoom', role: 'group', 'aria-label': 'Size' },
        step('−', 'Smaller', place - 1), element('span', {}, ZOOMS[place] + ' %'), step('+', 'Larger', place + 1));
}

// The text of a picture as a file, which says what it is of.
function pictureText(picture) {
    const copy = picture.cloneNode(true);
    for (const name of ['width', 'height']) copy.setAttribute(name, copy.viewBox.baseVal[name]);
    for (const made of copy.querySelectorAll('[tabindex]')) {
        for (const name of ['tabindex', 'role', 'data-ends']) made.removeAttribute(name);
    }
    copy.prepend(drawing('desc', {}, sheetText(app)));
    return new XMLSerializer().serializeToString(copy).replace('<desc', () => '<style>' + PICTURE_STYLE + '</style><desc');
}

function saveButton(label, name, bytes) {
    return element('button', { type: 'button', class: 'copy', click: () => {
        const link = element('a', { href: URL.createObjectURL(new Blob([bytes()])), download: name });
        link.click();
        setTimeout(() => URL.revokeObjectURL(link.href), 60000);
    } }, label);
}

function savePicture(name) {
    return saveButton('Save as SVG', name + '.svg', () => pictureText(document.querySelector('#view svg')));
}

// A picture at its size; at 100 % it is as wide as there is room.
function shownPicture(app, picture) {
    const { zoom } = app.state;
    if (zoom !== '100' && ZOOMS.includes(zoom)) {
        for (const name of ['width', 'height']) picture.setAttribute(name, picture.getAttribute(name) * zoom / 100);
        picture.classList.add('zoomed');
    }
    return element('div', { class: 'scroll', tabindex: 0, role: 'region', 'aria-label': 'Picture' }, picture);
}
