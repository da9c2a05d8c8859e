# The responders (openssl ocsp) of the CAs that `register` made. Sourced behind tools/x86-64.sh.
#
#   responder CA SIGNER [OPTION...]  starts one for the cards of the CA in this folder, which SIGNER signs
#                                    for; sets port, pid, and log, the file with what it says
#   stop PID...                      ends these, and waits until nobody listens there
#   responders                       the pids of all that were started and not ended
#
# They listen on a free port each; `openssl ocsp` can not be told to listen on loopback alone.
responders=''

stop() {
    for pid in "$@"; do
        kill "$pid" 2>/dev/null || :
        wait "$pid" 2>/dev/null || :
        left=''
        for other in $responders; do
            [ "$other" = "$pid" ] || left="$left $other"
        done
        responders=$left
    done
}

responder() {
    ca=$1 signer=$2
    shift 2
    log=$(mktemp -p "$ca")
    openssl ocsp -port 0 -index "$ca/index.txt" -CA "$ca/ca.pem" \
        -rsigner "$ca/$signer.pem" -rkey "$ca/$signer.key" "$@" >"$log" 2>&1 &
    pid=$!
    responders="$responders $pid"
    port=
    tries=0
    while [ -z "$port" ]; do
        port=$(sed -n 's/^ACCEPT .*:\([0-9][0-9]*\) .*/\1/p' "$log")
        tries=$((tries + 1))
        if [ "$tries" -gt 100 ] || ! kill -0 "$pid" 2>/dev/null; then
            cat "$log" >&2
            die "the responder of $signer did not start"
        fi
        [ -n "$port" ] || sleep 0.1
    done
}
