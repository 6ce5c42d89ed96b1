# shellcheck shell=bash disable=SC2154
# For ./run, ./plokamyr and ./install: what all of them say, and how they have crates proved.
# The caller sets 'here', the root of the repository, and 'me', which its messages begin with.

# A closed standard error changes no exit status.
say() {
    echo "$me: $1" >&2 || :
}

fail() {
    say "$1"
    exit 3
}

# A descriptor that the caller has closed must not become the number of another file. From / a read fails.
# shellcheck disable=SC2034 # ./run asks for 'input'
open_descriptors() {
    { : 3>&1; } 2> /dev/null || fail "standard output is closed"
    input=open
    { : 3<&0; } 2> /dev/null || { input=closed; exec < /; }
}

# Has a command write to standard output, and says why if it cannot. If the reader goes away early nothing is said, and the
# status is that of SIGPIPE, as with any command.
deliver() {
    local why status=0
    { why=$("$@" 2>&1 >&3); } 3>&1 || status=$?
    [ "$status" != 141 ] || exit 141
    [ "$status" = 0 ] || fail "standard output cannot be written: ${why##*: }"
}

nothing_written() {
    fail "nothing can be written in $here/$1"
}

no_option() {
    fail "there is no option $1 (try --help)"
}

# Makes the folder 'work'; the caller removes it.
# shellcheck disable=SC2034
make_work() {
    work=$(mktemp -d 2> /dev/null) || fail "no temporary folder can be made"
}

# outdated FILE: what rt builds is missing, not built to the end, or older than a source. Folders count too: a file that was removed or
# renamed makes its folder newer.
outdated() {
    [ ! -f "$1" ] || [ -e "$1.unfinished" ] ||
        [ -n "$(find "$here/crates.txt" "$here"/crates/*/{src,specs,proofs} -newer "$1" -print -quit)" ]
}

# One call builds; others that come meanwhile wait for it, since rt may not run twice at once.
take_lock() {
    { mkdir -p "$here/target" && exec {lock}> "$here/target/run.lock"; } 2> /dev/null || nothing_written target
    if ! flock -w 1 "$lock"; then
        say "waiting for another call, which proves or builds first"
        flock "$lock" || fail "$here/target/run.lock cannot be locked"
    fi
}

drop_lock() {
    exec {lock}>&-
}

# build WHAT FILE CRATE WORDS...: proves CRATE and all that it needs, and has 'rt WORDS' write FILE, in CRATE's folder out.
build() {
    type -P rt > /dev/null ||
        fail "the $1 has to be proved and built first, and rt is not on the path: it is in the folder bin of the Rattle kit (README.md: What is needed)"
    mkdir -p "$here/target/proved" 2> /dev/null || nothing_written target
    { mkdir -p "${2%/*}" && touch "$2.unfinished"; } 2> /dev/null || nothing_written "crates/$3/out"
    find_left "$3"
    prove "$1" "${@:4}"
    [ -f "$2" ] || fail "rt has built no $1"
    # as old as the beginning: an edit since then is not in it
    { touch -r "$2.unfinished" "$2" && rm "$2.unfinished"; } 2> /dev/null || nothing_written "crates/$3/out"
}

# find_left CRATE: sets 'left', the crates that are to be proved, each after those that it uses. CRATE is always the last: only rt knows
# whether what it builds from it is as it was.
find_left() {
    local line name used
    declare -gA uses=() met=() digests=()
    needed=() left=()
    # 'NAME: DEP ..', or 'NAME staticlib: DEP ..'
    while IFS= read -r line; do
        line=${line%%#*}
        [[ $line = *:* ]] || continue
        read -r name _ <<< "${line%%:*}"
        [ -z "$name" ] || uses[$name]=${line#*:}
    done < "$here/crates.txt"
    need "$1"
    kit=$(rt version < /dev/null) || fail "rt has no version"
    for name in "${needed[@]}"; do
        digests[$name]=$(digest "$name")
        if [ "$name" = "$1" ] || ! is_proved "$name"; then left+=("$name"); fi
    done
}

# need CRATE: adds it to 'needed', after all that it uses. The kit's crates are in no list.
need() {
    local name
    [[ -n ${uses[$1]+listed} && -z ${met[$1]-} ]] || return 0
    met[$1]=yes
    for name in ${uses[$1]}; do
        need "$name"
    done
    needed+=("$1")
}

# What a crate is proved from, in short: as rt's own stamp, which only rt can work out.
digest() {
    local name
    {
        echo "$kit ${uses[$1]}"
        for name in ${uses[$1]}; do
            echo "${digests[$name]-}"
        done
        # a crate may lack some of these folders
        (cd "$here/crates/$1" && { find src specs proofs -type f -exec sha256sum {} + 2> /dev/null || :; }) | sort
    } | sha256sum
}

# is_proved CRATE: rt will find its library unchanged. What was proved here has its digest in target/proved; where rt was called by hand since,
# times tell.
is_proved() {
    local name stamp record=$here/target/proved/$1 from=("$here/crates/$1"/{src,specs,proofs})
    stamp=$(stamp_of "$1")
    [ -f "$stamp" ] || return 1
    for name in ${uses[$1]}; do
        [[ " ${left[*]} " != *" $name "* ]] || return 1
        [ ! -f "$(stamp_of "$name")" ] || from+=("$(stamp_of "$name")")
    done
    if [ "$record" -ot "$stamp" ]; then
        [ -z "$(find "${from[@]}" -newer "$stamp" -print -quit 2> /dev/null)" ]
    else
        [ "$(< "$record")" = "${digests[$1]}" ]
    fi
}

# stamp_of CRATE: what rt writes last of a library that it has built.
stamp_of() {
    echo "$here/crates/$1/out/rlib/stamp"
}

# What a crate takes on average, from 3 to 40.
seconds_each=18

# prove WHAT WORDS...: proves the crates that are left, each in its folder; for the last one 'rt WORDS' is called. rt keeps the lock: what it has
# started may outlive this script.
prove() {
    local name words=(lib) count=${#left[@]} first=1
    say "proving $(counted "$count" crate) and building the $1 first; that takes about $(duration $((seconds_each * count)))"
    while [ ${#left[@]} -gt 0 ]; do
        next_batch
        say "proving $(numbers "$first" "$count"): $(listed "${batch[@]}")"
        [ ${#left[@]} -gt 0 ] || words=("${@:2}")
        for name in "${batch[@]}"; do
            if ! (cd "$here/crates/$name" && rt "${words[@]}") < /dev/null > "$here/target/rt.log" 2>&1; then
                cat "$here/target/rt.log" >&2 || :
                fail "the $1 could not be proved and built"
            fi
            echo "${digests[$name]}" > "$here/target/proved/$name" || nothing_written target
        done
        first=$((first + ${#batch[@]}))
    done
}

# Takes from 'left' what uses nothing that is left: that is 'batch'.
next_batch() {
    local name used rest=()
    batch=()
    for name in "${left[@]}"; do
        for used in ${uses[$name]}; do
            [[ " ${left[*]} " != *" $used "* ]] || { rest+=("$name"); continue 2; }
        done
        batch+=("$name")
    done
    # where crates use each other in a circle, rt says so
    [ ${#batch[@]} -gt 0 ] || { batch=("${rest[@]}"); rest=(); }
    left=("${rest[@]}")
}

# numbers FIRST COUNT: which the crates of 'batch' are.
numbers() {
    if [ ${#batch[@]} = 1 ]; then
        echo "crate $1 of $2"
    else
        echo "crates $1 to $(($1 + ${#batch[@]} - 1)) of $2"
    fi
}

counted() {
    if [ "$1" = 1 ]; then echo "$1 $2"; else echo "$1 $2s"; fi
}

listed() {
    local text
    text=$(printf '%s, ' "$@")
    echo "${text%, }"
}

# duration SECONDS: as people say it.
duration() {
    if [ "$1" -lt 90 ]; then
        echo "$((($1 + 5) / 10 * 10)) seconds"
    else
        echo "$((($1 + 30) / 60)) minutes"
    fi
}
