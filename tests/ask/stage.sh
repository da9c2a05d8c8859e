# What the cases of ./ask share. Sourced by run, in its folder, with `top`, `python` and `room` set.
# Its functions; then the stand-ins, document 01's case, and slips for its card.
failed=0

is() { # NAME GIVEN WANTED
    [ "$2" = "$3" ] && return
    failed=1
    printf 'ask: %s: given, then wanted:\n%s\n%s\n' "$1" "$2" "$3"
}
path=$PATH
tool() { # WORDS...: the tool in the room, with the standard library alone
    PATH=$path "$python" -S -E ./ask "$@"
}
transcripts() { # TOOL FILE...
    "$python" -S -E "$top/tests/ask/transcript.py" "$@" || failed=1
}
hex() { od -An -v -tx1 | tr -d ' \n'; }
files() { # NAME HEX...
    "$python" -S -E -c '
import sys
for name, digits in zip(sys.argv[1::2], sys.argv[2::2]):
    open(name, "wb").write(bytes.fromhex(digits))
' "$@"
}
has() { # NAME FILE HEX: a file has these octets
    files wanted "$3"
    cmp "$2" wanted && return
    failed=1
    echo "ask: $1"
}
none() { # NAME WANTED: the tool has no answer about good.der, and complains so
    given=$(tool good.der --card tests/ask/card.pem --issuer tests/ask/ca.pem 2>&1)
    is "$1: status" $? 2
    is "$1" "$given" "$2"
}
zeros=$(printf %0174d 0)
cache() { # PLACE...: hex of a cache with these places, or their beginnings, and then empty ones
    for place; do
        printf %s "$place$zeros" | cut -c1-174 | tr -d '\n'
    done
    [ $# -eq 64 ] || printf "%0$((174 * (64 - $#)))d" 0
}
line() { printf '%s\n' "$1" | hex; } # DIGITS: a line of them, in hex

# Responses that are refused with number 3, with their places, and a list of their sums.
mkdir broken
"$python" -S -E "$top/tests/ask/broken.py" broken
cksum broken/*.der | grep -v ' 0 broken/empty' >sums

# The stand-in takes the response for the slip to be written, and keeps its words and its input; but a
# response that the list has is refused with number 3. For trial it writes the place of the response,
# or the file answered where there is one. For room it writes the file reply-NN for operation NN; where
# there is no such file, it is the program.
cat >run <<'END'
#!/bin/sh
cd "$(dirname "$0")" || exit 2
place() { # the place of the response, where the list has it
    file=$(sed -n "s/^$(cksum <response) //p" sums)
    [ -n "$file" ] && cat "${file%.der}.place"
}
if [ "$*" = trial ]; then
    cat >input-trial
    tail -c +359 input-trial >response
    cat answered 2>/dev/null || place
    exit "$(cat status-trial 2>/dev/null || echo 0)"
fi
if [ "$*" = room ]; then
    set -- reply-*
    [ -e "$1" ] || exec top/run room
    cat >input
    operation=$(head -c 1 input | od -An -tx1 | tr -d ' ')
    cp input "input-$operation"
    cat "reply-$operation"
    exit "$(cat "status-$operation" 2>/dev/null || echo 0)"
fi
echo "$*" >words
cat >input
tail -c +354 input >response
if place >/dev/null; then
    echo 040300
else
    od -An -v -tx1 response | tr -d ' \n'
    echo
fi
cat more 2>/dev/null
exit "$(cat status)"
END
chmod +x run
echo 0 >status
for program in desk room trial; do
    mkdir -p "crates/$program/out"
    : >"crates/$program/out/$program"
done
ln -s "$top" top
mkdir tools
cp "$top/ask" ask
cp -R "$top/tools/asking" tools
ln -s "$top/tests" tests

# Document 01's case, octet by octet.
ones=1111111111111111111111111111111111111111
twos=2222222222222222222222222222222222222222
threes=3333333333333333333333333333333333333333
case01=$(tr -d ' \n' <<'END'
51
11 11 11 11 11 11 11 11 11 11 11 11 11 11 11 11 11 11 11 11
22 22 22 22 22 22 22 22 22 22 22 22 22 22 22 22 22 22 22 22
01
05 00 00 00 00 00 00 00 00 00 00 00 00 00 00 00 00 00 00 00
00 00 00 00 42 74 2a 10
00 00
01 01 00
33 33 33 33 33 33 33 33 33 33 33 33 33 33 33 33 33 33 33 33
00 00
00 00 00 00 00 00 00 00 00 00 00 00 00 00 00 00 00 00 00 00 00 00 00 00 00 00 00 00 00 00 00 00
00 00 00 00 00 00 00 00 00 00 00 00 00 00 00 00 00 00 00 00 00 00 00 00 00 00 00 00 00 00 00 00
00 00 00 00 00 00 00 00 00 00 00 00 00 00 00 00 00 00 00 00 00 00 00 00 00 00 00 00 00 00 00 00
00 00 00 00 00 00 00 00 00 00 00 00 00 00 00 00 00 00 00 00 00 00 00 00 00 00 00 00 00 00 00 00
00 00 00 00 00 00 00 00 00 00 00 00 00 00 00 00 00 00 00 00 00 00 00 00 00 00 00 00 00 00 00 00
00 00 00 00 00 00 00 00 00 00 00 00 00 00 00 00 00 00 00 00 00 00 00 00 00 00 00 00 00 00 00 00
00 00 00 00 00 00 00 00 00 00 00 00 00 00 00 00 00 00 00 00 00 00 00 00 00 00 00 00 00 00 00 00
00 00 00 00 00 00 00 00 00 00 00 00 00 00 00 00 00 00 00 00 00 00 00 00 00 00 00 00 00 00 00 00
30 03 0a 01 06
END
)

# The stand-in's slips, by name and hex.
card=$(printf %s "$case01" | cut -c3-124)
files good.der "01${card}0000000042742a10000000004276cd10" \
    unknown.der "03${card}0000000042742a10000000004276cd10" refusal-1.der 040100 refusal-6.der 040600 \
    refusal-7.der 040700 refusal-8.der 040800 refusal-17.der 041100 empty.der ''
good=$(hex <good.der)
asked="--serial 05 --name-hash $ones --key-hash $twos --now 2005-05-01T01:00:00Z --tolerance 300"
kept="the answer stands, and is not filed:"
