#!/bin/sh
# A server and two clients over sockets, as in three shells: examples/two-shells.sh [PORT]. Status 0: each printed what
# stands beside this file as two-shells-*.out.
#
# `serve` accepts both connections before it answers either. So both clients are started before the input of either is ended: a
# client opens its connection when it starts, and greets once its input has ended. Client 2's input is ended after client 1 is
# done, so that what is printed is the same at each run.
port=${1:-47113}
key=6578616d706c65 # the group's key, which the server isn't given
top=$(dirname -- "$(readlink -f -- "$0")")/..
here=$top/examples
work=$(mktemp -d) || exit 1
server=
one=
two=

# Whatever is left is stopped, and the folder goes.
clean() {
    kill $server $one $two 2>/dev/null
    rm -rf "$work"
}
trap clean EXIT
trap 'exit 1' HUP INT TERM

# Builds the program, where it isn't built: an empty script ends with status 5.
"$top/vicos" group </dev/null >/dev/null
[ $? -eq 5 ] || exit 1

"$top/vicos" serve "127.0.0.1:$port" 2 plain 2 >"$work/serve" &
server=$!
sleep 1 # it doesn't say when it listens
kill -0 "$server" 2>/dev/null || { cat "$work/serve"; echo "is port $port in use?"; exit 1; }

# Each client reads a pipe that is open until its descriptor here is closed. Both start here.
mkfifo "$work/input1" "$work/input2" || exit 1
"$top/vicos" client "127.0.0.1:$port" 1 2 $key plain <"$work/input1" >"$work/1" &
one=$!
"$top/vicos" client "127.0.0.1:$port" 2 2 $key plain <"$work/input2" >"$work/2" &
two=$!
exec 3>"$work/input1" 4>"$work/input2"

# The input of client 1 ends, and it does its lines; then that of client 2.
cat "$here/two-shells-1.client" >&3
exec 3>&-
wait "$one"
status1=$?
cat "$here/two-shells-2.client" >&4
exec 4>&-
wait "$two"
status2=$?

# A client that couldn't connect leaves the server waiting: then it is stopped.
[ "$status1$status2" = 00 ] || kill "$server" 2>/dev/null
wait "$server"
echo "statuses: client 1 $status1, client 2 $status2, serve $?"
result=0
for it in 1 2 serve; do
    echo "== $it"
    cat "$work/$it"
    cmp -s "$work/$it" "$here/two-shells-$it.out" || { echo "(not as in examples/two-shells-$it.out)"; result=1; }
done
exit $result
