#!/usr/bin/env bash
# A nightly backup of a folder, and its restore:
#
#     examples/nightly.sh backup STORE FOLDER LIST    archives FOLDER in STORE, and adds a line to LIST
#     examples/nightly.sh restore STORE LIST BACK     writes the newest archive of LIST into BACK, a new folder
#
# STORE is the file of a configuration, or the address of a server as tcp!HOST!PORT. A line of LIST says when an archive
# was made, what it is found by, and of which folder it is. A store has no list of its archives: keep a copy of LIST
# elsewhere. Paths in a configuration are taken from the folder in which this runs. As a line of crontab(5), each night
# at two:
#
#     0 2 * * * cd /srv/backup && /opt/venti/examples/nightly.sh backup venti.conf /home archives > /dev/null
#
# It prints the line that it adds. What the archive lacks, and what failed, comes on standard error. The status is that
# of vac or of tools/unvac.py, or 1 for the words and for LIST. At status 6 there may be an archive of all that could be
# read; its line is added then.
set -u

say() {
    printf 'nightly: %s\n' "$*" >&2
}

top=$(dirname "$(dirname "$(readlink -f "${BASH_SOURCE[0]}")")") || exit 1
is_line='^vac:[0-9a-f]{40}$'

# What a status of vac asks for; docs/MANUAL.md has all of them.
advice() {
    case $1 in
        4) echo 'a file of the store cannot be had; another process may have it' ;;
        6) echo 'the configuration, the server or the folder cannot be read' ;;
        9) echo 'the store is damaged: checkarenas tells where' ;;
        10) echo 'the store is full, and keeps what it has' ;;
        *) echo 'docs/MANUAL.md says what that is' ;;
    esac
}

backup() {
    local store=$1 folder=$2 list=$3 line status
    line=$("$top/venti" vac "$store" "$folder")
    status=$?
    if ! [[ $line =~ $is_line ]]; then
        say "no archive of $folder, status $status: $(advice "$status")"
        [ "$status" -ne 0 ] || status=1
        return "$status"
    fi
    if [ "$status" -eq 6 ]; then
        say "an archive of $folder that lacks what could not be read, status 6"
    elif [ "$status" -ne 0 ]; then
        say "an archive of $folder, status $status: $(advice "$status")"
    fi
    # The line is all by which the archive is found: it is on the disk before this ends well.
    line="$(date -u +%Y-%m-%dT%H:%M:%SZ) $line ${folder//$'\n'/?}"
    if ! { printf '%s\n' "$line" >> "$list" && sync -- "$list"; }; then
        say "$list cannot be written; keep this: $line"
        return 1
    fi
    printf '%s\n' "$line"
    return "$status"
}

restore() {
    local store=$1 list=$2 back=$3 line='' score
    line=$(tail -n 1 -- "$list") || return 1
    score=${line#* }
    score=${score%% *}
    if ! [[ $score =~ $is_line ]]; then
        say "the last line of $list tells no archive"
        return 1
    fi
    "$top/tools/unvac.py" "$store" "$score" "$back"
}

case ${1-} in
    backup | restore) ;;
    *) set -- ;;
esac
if [ "$#" -ne 4 ]; then
    say 'the words are backup STORE FOLDER LIST, or restore STORE LIST BACK'
    exit 1
fi
"$@"
