# Starts a program of this repository. `top` is the folder of the repository.
#
# It is the program that was built here, else the one that lies ready in dist/ for this machine, where that was made of
# the sources that stand here and starts; else it is proved and built first. Where TICKET_PROGRAMS names a folder (an
# absolute path), it is the one there, and nothing is built.

# (on a machine of another kind those do not start)
case $(uname -m) in
aarch64) ready=$top/dist/aarch64-linux ;;
*) ready=$top/dist/x86_64-linux ;;
esac
ready=${TICKET_PROGRAMS:-$ready}

start() {
    name=$1
    shift
    find_program "$name" || "$top/tools/build" "$name" </dev/null
    exec "$program" "$@"
}

# Sets `program` to the path of a program. Where it fails, the program has to be built there first.
find_program() {
    if [ -z "${TICKET_PROGRAMS:-}" ]; then
        if [ ! -d "$top/crates" ]; then
            echo "$1: this copy has no crates/, so it can't tell what dist/ is made of, nor build: take the whole repository, or \
start ${ready#"$top/"}/$1 itself" >&2
            exit 4
        fi
        program=$top/crates/$1/out/$1
        [ ! -x "$program" ] || return 0
    fi
    is_ready "$1" || return 1
    program=$ready/$1
}

# Whether the program in dist/ can stand for the one that would be built here. What was found is noted in a file, and
# holds until a source is newer.
is_ready() {
    [ -z "${TICKET_PROGRAMS:-}" ] || return 0
    [ -x "$ready/$1" ] || return 1
    noted=$top/dist/.checked-${ready##*/}
    if [ -f "$noted" ] && [ -z "$(find "$top/crates" "$top/crates.txt" "$top/HANDLES" "$top/dist/SOURCES" "$ready" \
        -name out -prune -o -newer "$noted" -print -quit)" ]; then
        return 0
    fi
    : 2>/dev/null >"$noted.new" || true
    of_dist=$(sed '/^toolchain /d' "$top/dist/SOURCES" | sha256sum)
    [ "$("$top/tools/sources" "$top" | sha256sum)" = "$of_dist" ] || return 1
    starts_here "$1" || return 1
    mv -f "$noted.new" "$noted" 2>/dev/null || true
}

starts_here() {
    words='order 1'
    [ "$1" = ticketc ] || words='labels 1 0'
    case $(uname -sm) in
    'Linux x86_64' | 'Linux aarch64') "$ready/$1" $words </dev/null >/dev/null 2>&1 && return 0 ;;
    esac
    echo "$1: the program in dist/ does not start here: it needs Linux on x86_64 or aarch64, with glibc 2.34 or later. \
\`tools/build $1\` proves and builds one with the Rattle toolchain." >&2
    return 1
}
