// What is looked at, which the address of the page keeps behind its #, so that a link shows the same again.

const START = {
    view: 'matrix',
    focus: '',
    from: '',
    to: '',
    search: '',
    namespace: '',
    protocol: '',
    port: '',
    sort: 'all',
    passing: true,
    joined: true,
    cidrs: false,
    zoom: '100',
    policy: '',
    toggled: [],
};

function readState(hash) {
    const state = Object.assign({}, START, { toggled: [] });
    for (const part of hash.replace(/^#/, '').split('&')) {
        const equals = part.indexOf('=');
        if (equals < 0) continue;
        const name = part.slice(0, equals);
        let value;
        try { value = decodeURIComponent(part.slice(equals + 1)); } catch (error) { continue; }
        if (name === 'toggled') state.toggled = value.split('|').filter(Boolean);
        else if (typeof START[name] === 'boolean') state[name] = value !== 'no';
        else if (Object.prototype.hasOwnProperty.call(START, name)) state[name] = value;
    }
    // A link that only names a workload shows its picture.
    if (state.focus && !/(^|[#&])view=/.test(hash)) state.view = 'graph';
    return state;
}

function writeState(state) {
    const parts = [];
    for (const name of Object.keys(START)) {
        const value = state[name];
        if (name === 'toggled' ? !value.length : name !== 'view' && value === START[name]) continue;
        const text = name === 'toggled' ? value.join('|') : typeof value === 'boolean' ? (value ? 'yes' : 'no') : value;
        const coded = encodeURIComponent(text)
            .replace(/%2F/g, '/')
            .replace(/%5B/g, '[')
            .replace(/%5D/g, ']')
            .replace(/%3A/g, ':');
        parts.push(name + '=' + coded);
    }
    return '#' + parts.join('&');
}
