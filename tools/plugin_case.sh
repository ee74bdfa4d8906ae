# For ./test: the plugin on a cluster of files, which stands in the place of kubectl (tools/fake-cluster/kubectl says how a case changes
# it), or with the word `manifests` the plugin with the real kubectl and no cluster. Sourced by the cases of the plugin.
# shellcheck shell=bash
[ "${1-}" = manifests ] || export PATH=$ROOT/tools/fake-cluster:$PATH
export KUBECTL_NP_PROGRAM=$NP XDG_CACHE_HOME=$PWD/cache
plugin() { "$ROOT/kubectl-np" "$@"; }
