# shellcheck shell=bash disable=SC2154 # checks/commands/firmware.sh gives kit and top
# What the cases of checks/commands/firmware.sh share. A case stands in a folder of its own, its tests in `t`.

fail() {
    echo "checks/commands/firmware.sh: $*" >&2
    exit 1
}

made() {
    make --no-print-directory -f "$kit/Makefile" RVTEST="$top/rvtest" "$@"
}

mklist() {
    "$kit/mklist" "$@"
}

# Runs a command, and fails where its status is not the one given, or the text is not shown.
#   ends WHAT STATUS TEXT COMMAND..
ends() {
    local what=$1 wanted=$2 text=$3 status=0
    shift 3
    "$@" >out 2>err || status=$?
    if [ "$status" != "$wanted" ] || ! grep -qF -- "$text" out err; then
        fail "$what: status $status, expected $wanted and '$text':
$(tail -n 20 out err)"
    fi
    echo "$what: status $status, $text"
}

# The same of `make check TESTS=t`, with more words; make's own status of a failed command is 2.
check() {
    local what=$1 wanted=$2 text=$3
    shift 3
    ends "$what" "$wanted" "$text" made check TESTS=t "$@"
}

# Whether the last command showed a text, too, or did not.
shows() {
    grep -qF -- "$1" out err || fail "'$1' is not shown: $(tail -n 20 out err)"
}

hides() {
    ! grep -qF -- "$1" out err || fail "'$1' is shown: $(tail -n 20 out err)"
}

# Writes a file of what comes in, in a folder that may not be there yet.
put() {
    mkdir -p "$(dirname "$1")"
    cat >"$1"
}

# A test that exits with a code.
exits() {
    put "$1" <<<"int main(void) { return $2; }"
}
