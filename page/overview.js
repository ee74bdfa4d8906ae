// The picture of the whole cluster: each line of the matrix stands at the left as a sender and at the right as a receiver, by namespace;
// where something passes there is a line between. So each line is read from left to right, and no layout is worked out.

const NODE = { height: 24, gap: 5, heading: 30, top: 34 };
const MOST_EDGES = 3000;

// Both columns stand side by side in the window, a narrow one too.
function nodeWidth() { return Math.round(Math.max(120, Math.min(330, (innerWidth - 60) * 0.36))); }

function nodeLetters() { return Math.floor((nodeWidth() - 12) / 7.9); }

// The places of lines in a column, and the frames of their namespaces.
function columnPlaces(lines) {
    const places = [], frames = [];
    let y = NODE.top, namespace;
    for (const line of lines) {
        const closed = line.kind === 'namespace';
        const group = closed ? '' : line.members ? line.namespace || 'equal in several namespaces' : 'outside';
        if (group !== namespace) {
            if (places.length) y += NODE.gap * 2;
            if (!closed) {
                frames.push({ name: group, y, height: NODE.heading });
                y += NODE.heading;
            }
        }
        namespace = group;
        places.push(y);
        y += NODE.height + NODE.gap;
        if (!closed) frames[frames.length - 1].height = y - frames[frames.length - 1].y;
    }
    return { places, frames, height: y };
}

function overviewNode(app, line, x, y, key) {
    const open = () => {
        if (line.kind === 'workload') app.change({ view: 'graph', focus: line.full });
        else if (line.key) toggle(app, line.key);
    };
    const light = on => event => event.currentTarget.closest('svg').querySelectorAll('.line[data-' + key + ']')
        .forEach(made => made.classList.toggle('lit', on));
    return drawing('g', {
        class: 'box' + (line.members ? '' : ' outside'),
        tabindex: line.members ? 0 : false,
        role: line.members ? 'button' : 'img',
        'aria-label': line.full + (line.kind === 'workload' ? ': its picture' : line.members ? ': open' : ''),
        click: open,
        keydown: byKey(open),
        mouseenter: light(true), mouseleave: light(false), focus: light(true), blur: light(false),
    },
    drawing('title', {}, line.full),
    drawing('rect', { x, y, width: nodeWidth(), height: NODE.height, rx: 4 }),
    drawing('text', { x: x + 8, y: y + 16 }, cutMiddle(lineLabel(line, 34), nodeLetters())));
}

function overviewEdge(app, matrix, r, c, end, from, to) {
    const start = nodeWidth(), bend = (end - start) / 2;
    const y1 = from + NODE.height / 2, y2 = to + NODE.height / 2;
    return drawing('path', {
        class: 'line ' + LEVEL_CLASSES[matrix.cells[r][c].level],
        d: 'M' + start + ' ' + y1 + ' C' + (start + bend) + ' ' + y1 + ' ' + (end - bend) + ' ' + y2 + ' ' + end + ' ' + y2,
        ['data-r' + r]: '',
        ['data-c' + c]: '',
        click: () => openCell(app, matrix, r, c),
    }, drawing('title', {}, cellWords(matrix, r, c)));
}

function overviewDrawing(app, matrix, edges) {
    const left = columnPlaces(matrix.senders), right = columnPlaces(matrix.receivers);
    // As wide as the window, but neither so narrow nor so wide that lines cannot be followed.
    const rightX = Math.max(nodeWidth() + 90, Math.min(1800, innerWidth - 60 - nodeWidth()));
    const width = rightX + nodeWidth(), height = Math.max(left.height, right.height) + 12;
    const frames = (column, x) => [].concat(...column.frames.map(frame => [
        drawing('rect', { class: 'frame', x: x + 0.5, y: frame.y, width: nodeWidth() - 1, height: frame.height, rx: 6 }),
        drawing('text', { class: 'side-text', x: x + 8, y: frame.y + 20 }, drawing('title', {}, frame.name),
            cutMiddle(frame.name, nodeLetters()))]));
    return drawing('svg', { viewBox: '0 0 ' + width + ' ' + height, width, height, role: 'group',
        'aria-label': 'Senders at the left, receivers at the right, by namespace. The matrix and the list say the same in words.' },
    drawing('text', { class: 'side-text', x: 0, y: 18 }, 'Who sends'),
    drawing('text', { class: 'side-text', x: rightX, y: 18 }, 'Who receives'),
    ...frames(left, 0), ...frames(right, rightX),
    ...edges.map(([r, c]) => overviewEdge(app, matrix, r, c, rightX, left.places[r], right.places[c])),
    ...matrix.senders.map((line, r) => overviewNode(app, line, 0, left.places[r], 'r' + r)),
    ...matrix.receivers.map((line, c) => overviewNode(app, line, rightX, right.places[c], 'c' + c)));
}

function overviewSection(app) {
    const matrix = makeMatrix(app);
    app.matrix = matrix;
    const edges = [];
    matrix.cells.forEach((row, r) => row.forEach((cell, c) => { if (cell !== null && cell.level !== NONE) edges.push([r, c]); }));
    const drawn = edges.slice(0, MOST_EDGES), left = edges.length - drawn.length + matrix.left;
    return viewSection('overview', 'Whole cluster', 'The whole cluster',
        [element('span', { class: 'legend' }, 'thick: everything passes, broken: some'), zoomControl(app), savePicture('np')],
        left > 0 && hint('Not all of it is drawn: close namespaces, choose one, or read the list.'),
        shownPicture(app, overviewDrawing(app, matrix, drawn)));
}
