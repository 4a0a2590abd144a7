#!/usr/bin/env bash
# Puts the store of a configuration behind a port, one client at a time, by socat:
#
#     examples/port.sh CONF [PORT [ADDRESS]]
#
# PORT is 17034 and ADDRESS 127.0.0.1 where no word says otherwise. Who reaches the port may read and write all of the
# store, and is asked for nothing. Each client has a session of its own; the next one waits until that has ended and the
# store is closed. One that says nothing keeps the others waiting. It runs until it is stopped, and what a sync was
# answered for stands however that is. Paths in CONF are taken from the folder in which this runs.
set -u

fail() {
    printf 'port.sh: %s\n' "$*" >&2
    exit 1
}

[[ $# -ge 1 && $# -le 3 ]] || fail 'the words are CONF [PORT [ADDRESS]]'
top=$(dirname "$(dirname "$(readlink -f "${BASH_SOURCE[0]}")")") || exit 1
conf=$1 port=${2-17034} address=${3-127.0.0.1}
[[ $port =~ ^[0-9]+$ ]] || fail "$port is no port"
[[ $address =~ ^[0-9.]+$ ]] || fail "$address is no address of the form 127.0.0.1"
command -v socat > /dev/null || fail 'socat is missing'

# The program is built and the store can be opened, or this ends as an empty session over it does.
"$top/venti" session "$conf" < /dev/null > /dev/null || exit

# A child of socat's does nothing but run the session, whose streams are the connection (nofork), and there is one child
# at most. The words go to it by the environment, since socat gives some marks a meaning of its own; the shell that it
# starts takes them just as they are.
export VENTI=$top/venti VENTI_CONF=$conf
listen="TCP4-LISTEN:$port,bind=$address,reuseaddr,fork,max-children=1"
exec socat "$listen" 'SYSTEM:set -f; IFS=; exec $VENTI session $VENTI_CONF,nofork'
