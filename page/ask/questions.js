// The questions that a form asks: the fields of each command, and the words that they give.

const PROTOCOLS = ['TCP', 'UDP', 'SCTP'];
const END_HINT = 'a workload, as shop/web[Deployment], or an address';

// A field: the option that it gives (none: the value alone), its label, the values that are offered, and whether it gives none where it is
// empty or the first of its choices.
const QUESTIONS = [
    { command: 'evaluate', label: 'One packet', hint: 'Whether one packet passes between two pods, or a pod and an address.', fields: [
        { option: '--from', label: 'From', offers: 'pods', hint: 'a pod, as shop/web-0, or an address' },
        { option: '--to', label: 'To', offers: 'pods', hint: 'a pod, as shop/db-0, or an address' },
        { option: '--protocol', label: 'Protocol', choices: PROTOCOLS },
        { option: '--port', label: 'Port', type: 'number', hint: '1 to 65535' },
    ] },
    { command: 'explain', label: 'Why', hint: 'Which rule decides between two ends, port by port, whether it allows or denies.', fields: [
        { option: '--from', label: 'From', offers: 'workloads', hint: END_HINT },
        { option: '--to', label: 'To', offers: 'workloads', hint: END_HINT },
    ] },
    { command: 'check', label: 'Statements', hint: 'What must, or must not, be able to connect, answered while you type.', fields: [
        { option: '--statement', label: 'Statements, one a line', text: 'deny any address => any pod : TCP 22\n' },
    ] },
    { command: 'exposure', label: 'New pods', hint: 'What a pod that does not exist yet could reach, and what could reach it.', fields: [
        { option: '--workload', label: 'Workload', offers: 'workloads', optional: true, hint: 'all workloads' },
    ] },
    { command: 'list', label: 'Rows', hint: 'The table of np list, in the form that you choose.', fields: [
        { option: '--focus', label: 'Workload', offers: 'workloads', optional: true, hint: 'all workloads' },
        { option: '--side', label: 'Side', choices: ['either', 'from', 'to'], optional: true },
        { option: '--format', label: 'Format', choices: ['text', 'csv', 'json'], optional: true },
        { option: '--report', label: 'Ranges', choices: ['2', '1'], names: ['by CIDRs', 'by their ends'], optional: true },
        { option: '--controller', label: 'Ingress controller', offers: 'workloads', optional: true, hint: 'not known' },
    ] },
    { command: 'unused', label: 'Unused rules', hint: 'The rules that decide nothing.', fields: [] },
    { command: 'flatten', label: 'Flatten', hint: 'NetworkPolicies that give the verdicts of all policies, admin policies among them. Read '
        + 'docs/use/FLATTEN.md before you apply them.', fields: [] },
    { command: 'sample', noFiles: true, label: 'Sample', hint: 'How many rows a made cluster of so many pods has, without a list.', fields: [
        { label: 'Pods', type: 'number', hint: '1 to 1000', value: '100' },
    ] },
];

const STATEMENTS = 'statements.txt';

// The words of a command line, of the values of its fields, and the file of statements, if it has one.
function wordsOf(question, values) {
    const words = [question.command], files = [];
    question.fields.forEach((field, place) => {
        const value = values[place];
        if (field.text !== undefined) {
            words.push(field.option, STATEMENTS);
            files.push([STATEMENTS, new TextEncoder().encode(value)]);
        } else if (!field.optional || value !== (field.choices ? field.choices[0] : '')) {
            words.push(...field.option ? [field.option, value] : [value]);
        }
    });
    return { words: question.noFiles ? words : words.concat(namesOf('now')), files };
}

function commandLine(words) { return ['np'].concat(words.map(shellWord)).join(' '); }
