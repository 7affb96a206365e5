#!/usr/bin/env bash
# Keeps the released program: release/acl_run, with the checksums of the sources that it was built from and its own in release/SUMS.
#   tools/release.sh crates     the crates that the program is made of
#   tools/release.sh sources    the checksum of their sources
#   tools/release.sh check      whether the release is that of the sources as they stand (exit status 0), or not (1)
#   tools/release.sh make FILE  makes the release from a program that a gate has built
set -eu
here=$(cd "$(dirname "$0")/.." && pwd)
cd "$here"

# acl_run and every crate of this repository below it, by crates.txt
crates() {
    local left="acl_run" seen="" name deps
    while [ -n "$left" ]; do
        name=${left%% *}
        left=${left#"$name"}
        left=${left# }
        case " $seen " in *" $name "*) continue ;; esac
        [ -d "crates/$name" ] || continue
        seen="$seen $name"
        deps=$(sed -n "s/^$name:[[:space:]]*//p" crates.txt)
        left="$left${left:+ }$deps"
    done
    tr ' ' '\n' <<<"$seen" | sed '/^$/d' | sort
}

sources() {
    crates | while read -r name; do
        find "crates/$name/src" "crates/$name/specs" "crates/$name/proofs" -type f 2>/dev/null || true
    done | LC_ALL=C sort | xargs -d '\n' sha256sum | sha256sum | cut -d' ' -f1
}

program() { sha256sum release/acl_run | cut -d' ' -f1; }

case ${1:-} in
    crates) crates ;;
    sources) sources ;;
    check)
        [ -x release/acl_run ] && [ -r release/SUMS ] || exit 1
        [ "$(cat release/SUMS)" = "$(printf 'sources %s\nprogram %s' "$(sources)" "$(program)")" ]
        ;;
    make)
        cp "$2" release/acl_run
        chmod 755 release/acl_run
        printf 'sources %s\nprogram %s\n' "$(sources)" "$(program)" >release/SUMS
        ;;
    *)
        sed -n '2,6s/^# \{0,1\}//p' "$0" >&2
        exit 2
        ;;
esac
