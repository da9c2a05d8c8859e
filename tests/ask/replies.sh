# What ./ask gives a stand-in for the program room, and what it makes of its replies.

# What the program room is given, and that its octets alone become the file: here 5,568 octets 5a,
# which are no cache.
pattern=$(printf %05568d 0 | sed 's/0/5a/g')
clock=0000000042742a10000000000000012c
files a.room "$(cache "$good")" reply-00 "$(line 0000)$pattern" \
    reply-01 "$(line 000040)$pattern" reply-02 "$(line 0100)" reply-03 "$(line 0001)"
tool room new.room --new >out
is "--new: status" $? 0
has "--new: the program's input" input-00 00
has "--new: the file" new.room "$pattern"
tool room a.room --now 2005-05-01T01:00:00Z --tolerance 300 >out
has "room: the program's input" input-03 "03${clock}00$(cache "$good")"
tool --room a.room good.der $asked >out
is "--room: status" $? 0
has "--room: the program's input, asking" input-02 "02${clock}3d$card$(cache "$good")"
has "--room: the program's input, filing" input-01 "01${clock}4e$good$(cache "$good")"
has "--room: the file" a.room "$pattern"
is "--room: the places filled" "$(tail -n 1 out)" "  after       filed; 64 of 64 places filled"
is "--room: what is beside the file" "$(echo a.room*)" "a.room a.room.lock"
files long.room "$pattern$pattern"
tool room long.room >out
is "of a long file one octet too many" "$(wc -c <input-03 | tr -d ' ')" $((18 + 5569))

# A program room that fails, or writes what it should not: no answer; or, where the response has one,
# an answer that is not filed. The file stays.
files a.room "$(cache "$good")"
reply() { # OPERATION REPLY(in hex) STATUS COMPLAINT
    files "reply-$1" "$2"
    reply=$(printf 'reply %.30s' "$2")
    tool --room a.room good.der $asked >out 2>err
    is "$reply: status" $? "$3"
    is "$reply" "$(cat err)" "ask: $4"
    is "$reply: the answer" "$(sed -n 1p out)" \
        "$([ "$3" = 2 ] || echo 'good: the responder says that this card is good')"
    has "$reply: the file" a.room "$(cache "$good")"
}
wrote="'./run room' wrote no answer:"
reply 02 "" 2 "$wrote it is not one line of hex; the cache gives no answer"
reply 02 "$(line 00)" 2 "$wrote its line begins with 00; the cache gives no answer"
reply 02 "$(line 0011)" 2 "$wrote its line begins with 0011; the cache gives no answer"
reply 02 "$(line 010000)" 2 "$wrote its line says more than a number; the cache gives no answer"
reply 02 "$(line 0100)00" 2 "$wrote behind its line are 1 octets; the cache gives no answer"
reply 02 "$(line 00000404)" 2 "$wrote a slip of kind 04 has 3 octets, this one 2; the cache gives no answer"
reply 02 "$(line 0000040406)" 2 "$wrote its slip is not for this card; the cache gives no answer"
reply 02 "$(line "0000$(printf %s "$good" | sed s/^0111/0121/)")" 2 \
    "$wrote its slip is not for this card; the cache gives no answer"
files reply-02 "$(line 0100)"
reply 01 "$(line 0000)$pattern" 0 "$kept './run room' wrote no count: 0 octets; the cache gives no answer"
reply 01 "$(line 000001)5a" 0 "$kept $wrote behind its line are 1 octets; the cache gives no answer"
reply 01 "$(line 0100)" 0 "$kept $wrote its line begins with 0100; the cache gives no answer"
echo 3 >status-01
reply 01 "$(line 000001)$pattern" 0 "$kept './run room' failed with status 3, so the cache gives no answer"
for marks in 00 02 01010000; do
    files reply-03 "$(line "0000$marks$(printf %0126d 0)")"
    is "marks $marks" "$(tool room a.room 2>&1)" \
        "ask: './run room' wrote no list: it does not fit the file; the cache gives no answer"
done
rm reply-* status-01
