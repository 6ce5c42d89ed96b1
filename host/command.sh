# shellcheck shell=bash disable=SC2154
# For ./plokamyr and ./install: builds the archive and the command where they are missing or older than their sources.
# The caller sets what host/prove.sh asks for.
# shellcheck source=host/prove.sh
. "$here/host/prove.sh"

archive=$here/crates/capi/out/libcapi.a
binary=$here/host/target/command/plokamyr
begun=$here/host/target/command/begun
built=$here/host/target/command/built

# Missing, or older than a source or the archive. By the time at which cargo was last asked: of a newer file it may find that it changes nothing.
binary_outdated() {
    [ ! -x "$binary" ] || [ ! -e "$built" ] ||
        [ -n "$(cd "$here/host" && find "$archive" Cargo.toml Cargo.lock cli plokamyr \( -path cli/tests -o -path cli/pages -o -path plokamyr/tests \) -prune -o -newer "$built" -print -quit)" ]
}

is_ready() {
    ! outdated "$archive" && ! binary_outdated
}

# For any x86-64: rt's default asks more of the host's processor, and a library does not look for it.
build_archive() {
    build library "$archive" capi lib --cpu x86-64
    echo "$kit" > "$archive.kit" || nothing_written crates/capi/out
}

# The repository's own git, whatever stands around it.
git_here() {
    (cd "$here" && git --no-optional-locks --git-dir .git --work-tree . "$@") 2> /dev/null
}

# What --version tells of a build. Of an archive that someone else has put there the kit is not known.
description() {
    local commit proved_by=unknown
    commit=$(git_here rev-parse --short=12 HEAD) || commit=unknown
    [ -z "$(git_here status --porcelain -- crates.txt crates host)" ] || commit+=" with changes"
    if [ -f "$archive.kit" ] && [ ! "$archive.kit" -ot "$archive" ]; then proved_by=$(< "$archive.kit"); fi
    echo "commit $commit, kit $proved_by"
}

# The kind of machine that cargo builds for unless it is told otherwise.
machine() {
    (cd "$here/host" && cargo -vV < /dev/null | sed -n 's/^host: //p')
}

# Cargo has a lock of its own; a compiler's server that it starts must not keep this one. All that a caller's variable or configuration
# could say otherwise is said: the archive, the kind of machine, and where the command goes.
run_cargo() {
    exec {lock}>&-
    PLOKAMYR_LIB=${archive%/*} PLOKAMYR_BUILD=$(< "$begun")
    export PLOKAMYR_LIB PLOKAMYR_BUILD
    cargo build --offline --quiet --release -p cli --target "$1" --target-dir target
}

build_binary() {
    local machine
    type -P cargo > /dev/null || fail "the command has to be built first, and cargo is not on the path"
    say "building the command first; that takes about half a minute"
    { mkdir -p "${binary%/*}" && description > "$begun"; } 2> /dev/null || nothing_written host/target
    machine=$(machine)
    [ -n "$machine" ] || fail "cargo does not tell for which machine it builds"
    (cd "$here/host" && run_cargo "$machine") < /dev/null >&2 || fail "the command could not be built"
    [ -x "$here/host/target/$machine/release/plokamyr" ] || fail "cargo has built no command"
    { cp "$here/host/target/$machine/release/plokamyr" "$binary.part" && mv "$binary.part" "$binary" && mv "$begun" "$built"; } 2> /dev/null ||
        nothing_written host/target
}

# For who hands the command on: what --version tells is to be so of the repository as it stands.
forget_other_build() {
    [ ! -e "$built" ] || [ "$(< "$built")" = "$(description)" ] || rm -f "$built" || nothing_written host/target
}

make_ready() {
    ! is_ready || return 0
    take_lock
    ! outdated "$archive" || build_archive
    ! binary_outdated || build_binary
    drop_lock
}
