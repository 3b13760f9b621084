#!/usr/bin/env bash
# Applies each deliberate fault to a copy of this crate and checks that
# generated run files expose it; that those of faults/unexposable, which no
# run file can expose, are not; and that FAULTS.md lists them all.
#
# usage: faults.sh [SEEDS]    (the seeds below SEEDS are tried; default 600)
set -euo pipefail

here="$(cd "$(dirname "$0")" && pwd)"
seeds="${1:-600}"
work="$(mktemp -d)"
trap 'rm -rf "$work"' EXIT

# Building takes longer than running, so nothing is optimised. Arithmetic wraps
# as in a release.
export CARGO_INCREMENTAL=1 CARGO_PROFILE_DEV_OPT_LEVEL=0 CARGO_PROFILE_DEV_DEBUG=0
export CARGO_PROFILE_DEV_DEBUG_ASSERTIONS=false CARGO_PROFILE_DEV_OVERFLOW_CHECKS=false

# copy WORKER: a fresh copy of the sources in the worker's folder.
copy() {
    mkdir -p "$work/$1"
    rm -rf "$work/$1/src"
    cp -r "$here/src" "$work/$1/src"
    cp "$here/Cargo.toml" "$work/$1/Cargo.toml"
    # The copy is a workspace of its own, wherever the folder lies.
    printf '\n[workspace]\n' >>"$work/$1/Cargo.toml"
}

# build WORKER ARGUMENT...
build() {
    (cd "$work/$1" && CARGO_TARGET_DIR="$work/$1/target" \
        cargo build --quiet --offline "${@:2}") >"$work/$1/build" 2>&1
}

# The faulty copies get their run files from the sound one.
expose=(--no-default-features --bin expose)

# try WORKER PATCH: prints what exposes the fault.
try() {
    copy "$1"
    if ! (cd "$work/$1" && patch -p1 --silent --fuzz=0 <"$2") >"$work/$1/build" 2>&1; then
        echo "patch fails"
    elif ! build "$1" "${expose[@]}"; then
        echo "build fails"
    else
        "$work/$1/target/debug/expose" seek "$work/pack" "$work/prints"
    fi
}

# worker NUMBER OF: every OF-th patch, a line for each.
worker() {
    local i=0 patch
    for patch in "$here"/faults/*.patch "$here"/faults/unexposable/*.patch; do
        if ((i++ % $2 == $1)); then
            echo "${patch#"$here"/faults/}|$(try "$1" "$patch")" >>"$work/found.$1"
        fi
    done
}

copy 0
build 0 --bin generate
"$work/0/target/debug/generate" pack "$seeds" >"$work/pack"
build 0 "${expose[@]}"
"$work/0/target/debug/expose" prints "$work/pack" >"$work/prints"

worker 0 2 &
worker 1 2
wait $!

bad=0
while IFS='|' read -r patch how; do
    name="${patch%.patch}"
    case "$name: $how" in
    unexposable/*": none") how="not exposed, as expected" ;;
    unexposable/*) how="WRONG: $how" bad=1 ;;
    *": seed "*) ;;
    *) how="WRONG: $how" bad=1 ;;
    esac
    name="${name#unexposable/}"
    grep -qF "\`$name\`:" "$here/FAULTS.md" || how="WRONG: not in FAULTS.md" bad=1
    printf '%-36s %s\n' "$name" "$how"
done < <(
    cat "$work/found.0" "$work/found.1" >"$work/found"
    grep -v '^unexposable' "$work/found" | sort
    grep '^unexposable' "$work/found" | sort
)
exit "$bad"
