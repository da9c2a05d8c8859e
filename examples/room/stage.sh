# What the scenes of the room are played with. Sourced behind examples/row/responders.sh, with `folder` set to
# the register's folder and `built` to that of the programs.
#
#   listen NAME CA SIGNER [OPTION...]  starts a responder, and sets NAME to its port
#   scene WORDS...                     begins a scene, with a new cache
#   new_cache                          another new cache: sets cache
#   desk N READER PORT [TIME]          the reader comes to desk N: a process, whose words are shown
#   at_once PORT READER...             each reader comes to a desk of its own, all at the same time
#   says WORDS...                      the last desk has to have said each of these
#   from_cache READER...               each has to be answered from the cache, with nobody listening
#   asked NAME N                       the responder's own log has to have N requests of this scene
#   taken N                            so many places of the cache have to be other than zeros
#   seconds_at PLACE                   the time in the 8 octets there
#   keep; unchanged                    keeps a copy of the cache; the cache has to be that copy
#   hang READER OTHER                  desk 1 stops in the middle of filing READER's slip, and desk 2, which
#                                      OTHER comes to, has to wait: sets hung and waiting, their pids
#   finish N hung|waiting              that desk comes to its end
#   was_killed                         that desk, `hung`, has to have been ended by a signal
#   clear_stage                        ends all that was started and still runs
scenes=0 caches=0 listening='' hung='' waiting=''
said=$folder/said

wrong() {
    echo "  WRONG     $*" >&2
    exit 1
}

listen() {
    name=$1
    shift
    responder "$@"
    ln -s "$log" "$folder/$name.log"
    listening="$listening $name"
    eval "$name=$port"
}

requests() { grep -c 'Received request' "$folder/$1.log" || :; }

scene() {
    scenes=$((scenes + 1))
    [ "$scenes" -eq 1 ] || echo
    echo "Scene $scenes: $*"
    for name in $listening; do
        requests "$name" >"$folder/$name.seen"
    done
    new_cache
}

new_cache() {
    caches=$((caches + 1))
    cache=$folder/cache$caches
    head -c 5568 /dev/zero >"$cache"
}

# serve PROGRAM READER PORT [TIME]: becomes the desk's process.
serve() {
    program=$1 reader=$2 ca=$folder/house
    shift 2
    [ -f "$ca/$reader.pem" ] || ca=$folder/branch
    exec $emulator "$built/$program" "$cache" "$ca/ca.pem" "$ca/$reader.pem" "$@"
}

says() {
    for words; do
        grep -qF -- "$words" "$said" || wrong "the desk should have said: $words"
    done
}

# ended STATUS: what the desk ended with has to be what it said of the folio.
ended() {
    case $1 in
    0) says 'folio     opens' ;;
    1) says 'folio     stays closed' ;;
    *) wrong "the desk ended with $1" ;;
    esac
}

desk() {
    echo "  Desk $1, $2's card:"
    shift
    status=0
    (serve room "$@") >"$said" || status=$?
    show
    ended "$status"
}

# The last desk's words; after the first scene without those on the response and its signer.
show() {
    if [ "$scenes" -eq 1 ]; then
        sed 's/^/  /' "$said"
    else
        sed '/^  response  [0-9]/d; /^  signer /d; s/^/  /' "$said"
    fi
}

# In short what the last desk did with the cache.
did() { sed -n "s/^  filed  */filed /p; s/^  cache .*\(from the room's cache\)/answered \1/p" "$said"; }

at_once() {
    at=$1 number=0 desks=''
    shift
    for reader; do
        number=$((number + 1))
        serve room "$reader" "$at" >"$said.$number" &
        desks="$desks $!"
    done
    number=0
    for pid in $desks; do
        number=$((number + 1)) status=0
        wait "$pid" || status=$?
        mv "$said.$number" "$said"
        echo "  Desk $number, $1's card: $(did)"
        ended "$status"
        shift
    done
}

from_cache() {
    for reader; do
        (serve room "$reader" "$nobody") >"$said" || :
        says "from the room's cache"
    done
}

asked() {
    count=$(($(requests "$1") - $(cat "$folder/$1.seen")))
    echo "  Requests in the responder's log ($1): $count"
    [ "$count" -eq "$2" ] || wrong "there should be $2"
}

taken() {
    count=$(od -An -v -tx1 -w87 "$cache" | grep -c '[1-9a-f]' || :)
    [ "$count" -eq "$1" ] || wrong "$count places are taken, and it should be $1"
}

seconds_at() {
    od -An -v -tu1 -j "$1" -N 8 "$cache" | awk '{ for (i = 1; i <= NF; i++) n = n * 256 + $i } END { printf "%.0f", n }'
}

keep() { cp "$cache" "$folder/kept"; }
unchanged() { cmp "$cache" "$folder/kept" >&2 || wrong "the cache should be as it was"; }

# until_true WHAT COMMAND...: tries it ten times a second, for ten seconds.
until_true() {
    what=$1 tries=0
    shift
    until "$@"; do
        tries=$((tries + 1))
        [ "$tries" -le 100 ] || wrong "$what"
        sleep 0.1
    done
}

is_stopped() { [ "$(sed 's/.*) //; s/ .*//' "/proc/$1/stat" 2>/dev/null)" = T ]; }

hang() {
    keep
    serve stops "$1" "$house" >"$said.hung" &
    hung=$!
    until_true "the desk should stop in the middle of its filing" is_stopped "$hung"
    echo "  Desk 1, $1's card: stops in the middle of its filing"
    serve room "$2" "$house" >"$said.waiting" &
    waiting=$!
    until_true "the other desk should have an answer" grep -qs folio "$said.waiting"
    sleep 0.5
    ! grep -q filed "$said.waiting" || wrong "the other desk should wait"
    echo "  Desk 2, $2's card: has its answer, and waits for the lock"
    unchanged
}

finish() {
    status=0
    eval "wait \$$2" || status=$?
    eval "$2=''"
    mv "$said.$2" "$said"
    echo "  Desk $1 goes on: $(did)"
    ended "$status"
}

was_killed() {
    status=0
    wait "$hung" 2>/dev/null || status=$?
    hung=''
    [ "$status" -gt 128 ] || wrong "the desk should have been killed"
}

# A desk that is stopped hears no other signal than this.
clear_stage() {
    for pid in $hung $waiting; do
        kill -KILL "$pid" 2>/dev/null || :
        wait "$pid" 2>/dev/null || :
    done
    stop $responders
}
