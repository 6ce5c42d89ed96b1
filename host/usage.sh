# shellcheck shell=bash disable=SC2154
# For ./plokamyr where the command is not built: help, and errors in what was typed, without a proof. Names of commands, options and
# files, and missing operands, need no cargo either: these are told from the pages that the command itself prints, which
# 'tests/command --write' keeps in host/cli/pages. Values and instructions are read by the command, built without the library.

pages=$here/host/cli/pages
unproved=$here/host/target/unproved
entries=$here/host/plokamyr/src/ffi.rs

# Whether the command can read its operands a second time: not standard input, nor a pipe.
again=yes

# answer WORDS...: answers what needs no library, and ends; returns where the command itself is needed.
answer() {
    local word LC_ALL=C
    case ${1-} in
    '') [ $# -gt 0 ] || fail "a command is missing (try --help)" ;;
    -h | --help) deliver cat "$pages/COMMANDS"; exit 0 ;;
    help) answer "${2---help}" --help; return ;;
    -V | --version) deliver echo "plokamyr $(version) (not built)"; exit 0 ;;
    --man) return ;;
    esac
    [[ $1 =~ ^[a-z]+$ && -f $pages/$1 ]] ||
        fail "there is no command '$(shown "$1")': $(commands) would do (try --help)"
    for word in "${@:2}"; do
        [ "$word" != -- ] || break
        case $word in -h | --help) deliver cat "$pages/$1"; exit 0 ;; esac
    done
    me+=": $1"
    check_words "$1" "${@:2}"
    me=${me%: *}
}

# The version, from the one place that has it.
version() {
    sed -n 's/^version = "\(.*\)"$/\1/p' "$here/host/Cargo.toml" | head -n 1
}

# A text in one line that does nothing to a terminal.
shown() {
    echo "${1//[^ -~]/?}"
}

# The commands, as the page of all lists them.
commands() {
    local names last
    names=$(sed -n 's/^  \([a-z][a-z]*\) .*/\1, /p' "$pages/COMMANDS" | tr -d '\n')
    names=${names%, }
    last=${names##*, }
    echo "${names%, *} or $last"
}

# check_words COMMAND WORDS...: its options and operands, as host/cli/src/args.rs reads them, and that a file is there.
check_words() {
    local name operands=() given=' '
    read_page "$pages/$1"
    shift
    while [ $# -gt 0 ]; do
        case $1 in
        --) operands+=("${@:2}"); break ;;
        --*) name=${1%%=*} ;;
        -?*) name=${1:0:2} ;;
        *) operands+=("$1"); shift; continue ;;
        esac
        [ -n "${values[$name]+known}" ] || fail "there is no option $(shown "$name"); it has ${options:-none} (try --help)"
        check_value "$name" "$@" || shift
        [[ $given != *" $name "* || ${values[$name]} = *.. ]] || fail "$name is given twice"
        given+="$name "
        shift
    done
    case ${#operands[@]},$wanted in
    0,[A-Z]*) fail "$wanted is missing (try --help)" ;;
    1,FILE | 1,\[FILE\]) check_file "${operands[0]}" ;;
    0,\[*) again=no ;; # standard input
    esac
    for name in "${operands[@]}"; do
        [[ $name != - && (! -e $name || -f $name) ]] || again=no
    done
}

check_file() {
    [[ $1 = - || -e $1 ]] || fail "$(shown "$1") cannot be read: No such file or directory"
}

# check_value NAME WORDS...: the option that the first word is. Fails if its value is the next word.
check_value() {
    local value=${values[$1]%..}
    if [ -z "$value" ]; then
        [ "$2" = "$1" ] || fail "$1 takes no value"
    elif [ "$2" = "$1" ]; then
        [ $# -gt 2 ] || fail "$1 needs a value: $1 $value"
        return 1
    fi
}

# read_page PAGE: sets 'options', their names; 'values', what the value of each is called, with dots if it may be given again; and
# 'wanted', what else the command takes, if that is one thing.
read_page() {
    local line
    declare -gA values=()
    options='' wanted=''
    while IFS= read -r line; do
        if [[ $line =~ ^\ \ (-[^ ]+)\ ?([^ ]*)\ \  ]]; then
            values[${BASH_REMATCH[1]}]=${BASH_REMATCH[2]}
            options+="${options:+, }${BASH_REMATCH[1]}"
        elif [[ $line =~ ^usage:\ plokamyr\ [a-z]+\ (\[?[A-Z][^\ ]*(\ \|\ [A-Z][^\ ]*)?)(\ [-[].*)?$ ]]; then
            wanted=${BASH_REMATCH[1]//../}
            wanted=${wanted/ | / or }
        fi
    done < "$1"
}

# ask_unproved WORDS...: has the command read them, built over a stand-in for the library. It ends where it first asks the library, so
# that nothing comes out of it that the library would have to compute: what it answers before is what it answers with the library too.
# Returns if it asks, or cannot be built: then make_ready says what is missing.
ask_unproved() {
    local kind program status=0
    [ "$again" = yes ] || return 0
    type -P cargo > /dev/null && type -P "${CC:-cc}" > /dev/null && type -P ar > /dev/null || return 0
    stand_in < /dev/null > /dev/null 2>&1 || return 0
    kind=$(machine 2> /dev/null) && [ -n "$kind" ] || return 0
    program=$unproved/$kind/debug/plokamyr
    [ -x "$program" ] || say "building what reads the command line first; that takes a few seconds"
    build_unproved "$kind" < /dev/null > /dev/null 2>&1 && [ -x "$program" ] || return 0
    "$program" "$@" || status=$?
    [ "$status" = "$asks" ] || exit "$status"
}

# The status with which the stand-in ends the command, which has none such.
asks=77

# An archive in which each function that the wrapper calls ends the process, by _exit, so that nothing is written on the way.
stand_in() {
    local part=$unproved/part.$$ status=0
    [ ! -f "$unproved/libcapi.a" ] || [ "$entries" -nt "$unproved/libcapi.a" ] || return 0
    mkdir -p "$unproved" && {
        echo 'void _exit(int);'
        sed -n "s/^ *fn \(plokamyr_[a-z0-9_]*\)(.*/void \1(void) { _exit($asks); }/p" "$entries"
    } > "$part.c" &&
        "${CC:-cc}" -c "$part.c" -o "$part.o" && ar rc "$part.a" "$part.o" && mv "$part.a" "$unproved/libcapi.a" || status=1
    rm -f "$part".*
    return "$status"
}

# build_unproved MACHINE: as host/command.sh builds the command, in another folder, and not optimized, which is quicker.
build_unproved() {
    (cd "$here/host" && PLOKAMYR_LIB=$unproved PLOKAMYR_BUILD="not built" cargo build --offline --quiet -p cli --target "$1" --target-dir target/unproved)
}
