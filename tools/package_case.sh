# For ./test: the packages of the last commit, in the folder `made`. The first case that asks for them has them made, for all. Sourced by
# the cases package-NAME.
# shellcheck shell=bash
(
    flock 9
    [ -d "$SHARED/made" ] || { "$ROOT/package" --commit HEAD "$SHARED/made.new" >/dev/null && mv "$SHARED/made.new" "$SHARED/made"; }
) 9>"$SHARED/made.lock" || exit
ln -s "$SHARED/made" made
