# A server of the command under test, for tests/serve, tests/judge and tests/others, which read this file in the
# project's folder: it builds the command, makes an empty folder, goes there, and defines how a server starts and ends.
# CC and CFLAGS name another compiler and further options.
root=$PWD
build=target/tests/command
rm -rf "$build" # one that was built with other options would be taken as it is
make -s BUILD="$build" CC="${CC:-cc}" CFLAGS="-O2 ${CFLAGS:-}"
troughiron=$root/$build/troughiron
test=tests/$(basename "$0")
folder=$(mktemp -d "${TMPDIR:-/tmp}/troughiron-serve.XXXXXX")
server=
trap '[ -z "$server" ] || kill "$server" 2>/dev/null; rm -rf "$folder"' EXIT
cd "$folder"

fail() {
    echo "$test: $1" >&2
    for file in err log; do
        [ ! -s $file ] || sed "s/^/    $file: /" $file >&2
    done
    exit 1
}

# start IMAGE OPTION..: a server whose commands come from the pipe 'commands', with the terminal 'port'.
start() {
    rm -f commands port
    mkfifo commands
    "$troughiron" serve "$@" --link port <commands >out 2>err &
    server=$!
    exec 9>commands
    waits=0
    until [ -e port ]; do
        waits=$((waits + 1))
        [ $waits -lt 100 ] || fail "no terminal within ten seconds"
        kill -0 "$server" 2>/dev/null || fail "the server ended"
        sleep 0.1
    done
}

# finish STATUS: the end of input ends the server.
finish() {
    exec 9>&-
    status=0
    wait "$server" || status=$?
    server=
    [ "$status" = "$1" ] || fail "the server ended with $status and not $1"
    [ ! -e port ] || fail "the link is still there"
}
