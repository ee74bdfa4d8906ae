// Ranges of addresses by their ends. np writes a range as the blocks that it is made of, in their order; of many blocks nobody sees how far
// they go.

// The groups of 16 bits of an IPv6 address, or of 8 bits of an IPv4 address.
function addressParts(address) {
    if (!address.includes(':')) return address.split('.').map(Number);
    const [head, tail] = address.split('::').map(half => half ? half.split(':').map(part => parseInt(part, 16)) : []);
    return tail ? [...head, ...new Array(8 - head.length - tail.length).fill(0), ...tail] : head;
}

// The text of the parts; the first of the longest runs of zeros in IPv6 is left out.
function addressText(parts) {
    if (parts.length === 4) return parts.join('.');
    const text = parts.map(part => part.toString(16)).join(':');
    const runs = text.match(/\b0(:0\b)+/g) || [];
    const longest = runs.reduce((most, run) => run.length > most.length ? run : most, '');
    if (!longest) return text;
    const place = (':' + text + ':').indexOf(':' + longest + ':');
    return text.slice(0, Math.max(0, place - 1)) + '::' + text.slice(place + longest.length + 1);
}

// The last address of a block.
function lastAddress(block) {
    const [address, length] = block.split('/');
    const parts = addressParts(address), bits = parts.length === 4 ? 8 : 16;
    return addressText(parts.map((part, place) => {
        const free = Math.min(bits, Math.max(0, (place + 1) * bits - Number(length)));
        return part | 2 ** free - 1;
    }));
}

// A range as its first and last address.
function rangeEnds(range) { return range.slice(0, range.indexOf('/')) + '-' + lastAddress(range.slice(range.lastIndexOf(',') + 1)); }

// An end as it is shown: a range of several blocks by its ends, unless its blocks are asked for.
function endShown(end) { return app.state.cidrs || !end.includes(',') ? end : rangeEnds(end); }
