# The list of a cluster as it would be after `kubectl apply` of manifests, of a list of each:
#
#   jq -n -f tools/applied.jq --slurpfile cluster cluster.json --slurpfile manifests manifests.json >applied.json
#
# An object of the manifests takes the place of that of the same kind, namespace and name, and keeps its labels beside its own, as of a
# Namespace. What a controller that is replaced owns goes, over all steps of owners: its pods are those that the plugin made of the new
# template. These take the place of no other pod, and get another name where one stays that has theirs.

def home: .metadata.namespace // "default";
def key: "\(.kind) \(home) \(.metadata.name)";

# The keys of the controllers of an object.
def owners: home as $home | .metadata.ownerReferences[]? | select(.controller) | "\(.kind) \($home) \(.name)";

def keys_of(objects): reduce (objects | key) as $key ({}; .[$key] = true);

# Adds to the keys those of the objects that one of them owns, so often that pods of a CronJob are reached: by its Jobs.
def with_owned($objects): reduce range(3) as $_ (.; . as $keys | . + keys_of($objects[] | select(any(owners; $keys[.]))));

def is_made: .kind == "Pod" and any(owners; true);

# Gives a pod that was made another name where one that is there has its own.
def renamed($there; $all): if $there[key] then until($all[key] | not; .metadata.name += "-1") else . end;

$cluster[0].items as $old
| [$manifests[0].items[] | select(is_made)] as $made
| [$manifests[0].items[] | select(is_made | not)] as $new
| (keys_of($new[]) | with_owned($old)) as $gone
| (reduce $old[] as $object ({}; .[$object | key] = $object.metadata.labels)) as $labels
| [$old[] | select($gone[key] | not)] as $stays
| keys_of(($stays + $new)[]) as $there
| ($there + keys_of($made[])) as $all
| {apiVersion: "v1", kind: "List", items: (
    $stays
    + [$new[] | $labels[key] as $kept | if $kept then .metadata.labels = $kept + (.metadata.labels // {}) else . end]
    + [$made[] | renamed($there; $all)])}
