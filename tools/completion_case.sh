# For ./test: what is typed in a shell to try its completion. Sourced by the cases completion-in-SHELL.
# shellcheck shell=bash
export PATH=$ROOT/completion:$ROOT:$PATH XDG_CACHE_HOME=$PWD/cache KUBECTL_NP_PROGRAM=$NP
types() {
    mkdir 'my lists'
    cp examples/first.json 'my lists/one list.json'
    python3 "$ROOT/tools/typed.py" "$1" np 'np li\t --for\tj\t examples/shop.j\t --foc\tshop/w\t --side=fr\t'
    python3 "$ROOT/tools/typed.py" "$1" np 'np ev\t my\tone\t --from default/a\t --pr\tU\t'
    python3 "$ROOT/tools/typed.py" "$1" kubectl-np "kubectl-np --list examples/shop.j\\t expl\\t --from 'shop/w\\t --to=shop/d\\t"
}
