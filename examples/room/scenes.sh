# The scenes of the room, a function each, in the words of stage.sh.
#
# Readers of the house: ada, ben, r1 to r64 and last, in good standing but for ben. Reader of the branch: dora, whose
# card is suspended and has the same serial as ada's. Ports: `house` and `branch` are those of responders
# whose answers hold for a day, `minute` is the house's again, for a minute, and at `nobody` nobody listens.
scene_names='once apart together old full damaged hangs killed unwritten'
eight='r1 r2 r3 r4 r5 r6 r7 r8'
readers=$(seq -f 'r%g' 64)

once() {
    scene "two desks, one card: the network is asked once"
    desk 1 ada "$house"
    says 'does not hold this card' 'answer    good' ': 1 of 64'
    desk 2 ada "$house"
    says "from the room's cache" 'answer    good'
    asked house 1
    echo "  The responder is down:"
    keep
    desk 2 ada "$nobody"
    says "from the room's cache" 'answer    good'
    desk 1 ben "$nobody"
    says 'does not hold this card' 'answer    none'
    unchanged
}

apart() {
    scene "a suspended card with the same serial under another issuer"
    [ "$(serial_of house/ada)" = "$(serial_of branch/dora)" ] || wrong "the serials should be the same"
    desk 1 ada "$house"
    says 'answer    good' ': 1 of 64'
    desk 2 dora "$branch"
    says 'does not hold this card' 'answer    revoked' 'on hold' ': 2 of 64'
    desk 2 ada "$nobody"
    says "from the room's cache" 'answer    good'
    desk 1 dora "$nobody"
    says "from the room's cache" 'answer    revoked' 'on hold'
    echo "  In the other order, with a new cache:"
    new_cache
    desk 1 dora "$branch"
    says 'answer    revoked' 'on hold' ': 1 of 64'
    desk 2 ada "$house"
    says 'does not hold this card' 'answer    good' ': 2 of 64'
    desk 2 dora "$nobody"
    says "from the room's cache" 'answer    revoked' 'on hold'
    desk 1 ada "$nobody"
    says "from the room's cache" 'answer    good'
    asked house 2
    asked branch 2
}

serial_of() { openssl x509 -noout -serial -in "$folder/$1.pem"; }

together() {
    scene "eight desks at once"
    at_once "$house" $eight
    taken 8
    from_cache $eight
    asked house 8
    echo "  All eight are in the cache. Now one card at eight desks at once:"
    at_once "$house" last last last last last last last last
    taken 9
    from_cache last $eight
}

old() {
    scene "a slip grows old"
    desk 1 ada "$minute"
    says 'answer    good' ': 1 of 64'
    end=$(seconds_at 70)
    echo "  At nextUpdate plus 300 seconds of tolerance:"
    desk 2 ada "$house" $((end + 300))
    says "from the room's cache" 'answer    good'
    asked house 0
    echo "  One second later:"
    desk 2 ada "$house" $((end + 301))
    says 'too old (16)' 'answer    good' ': 1 of 64'
    asked house 1
    taken 1
    [ "$(seconds_at 70)" -gt "$end" ] || wrong "the new slip should have taken the place"
    desk 1 ada "$nobody" $((end + 301))
    says "from the room's cache" 'answer    good'
    echo "  At a desk whose clock is slow:"
    keep
    desk 3 ada "$house" $(($(seconds_at 62) - 1))
    says 'not yet in force (15)' 'refusal 15'
    unchanged
}

full() {
    scene "a full room"
    for first in 1 9 17 25 33 41 49 57; do
        at_once "$minute" $(seq -f 'r%g' "$first" $((first + 7))) >"$folder/shown"
    done
    taken 64
    from_cache $readers
    echo "  64 readers came, eight at a time, and all are in the cache."
    keep
    desk 1 last "$house"
    says 'answer    good' 'filed     not, and the answer stands: no place is empty or too old (20)'
    unchanged
    echo "  Ten minutes later, when those slips are too old:"
    later=$(($(date +%s) + 600))
    desk 2 last "$house" "$later"
    says 'answer    good' ': 64 of 64'
    desk 1 last "$nobody" "$later"
    says "from the room's cache" 'answer    good'
    tail -c +88 "$cache" >"$folder/others"
    tail -c +88 "$folder/kept" | cmp - "$folder/others" >&2 || wrong "the other 63 places should be as they were"
}

damaged() {
    scene "a cache that was damaged on the disk"
    desk 1 ada "$house"
    cp "$cache" "$folder/whole"
    printf '\001' | dd of="$cache" bs=1 seek=86 conv=notrunc status=none
    stays "An octet behind a slip is changed"
    head -c 87 "$folder/whole" | dd of="$cache" bs=87 seek=63 conv=notrunc status=none
    stays "One card is in two places"
    head -c 5567 "$folder/whole" >"$cache"
    stays "The last octet is cut off"
    printf '\000' >>"$cache"
    stays "An octet is added at the end"
    rm "$cache"
    echo "  The file is gone:"
    desk 2 ada "$house"
    says 'can not be read' 'is no cache (19)' 'answer    good'
    [ ! -e "$cache" ] || wrong "a desk should not make a cache by itself"
    asked house 6
}

# stays WORDS: the cache was damaged so. A desk has to leave it as it is, and to ask the responder.
stays() {
    echo "  $1:"
    keep
    desk 2 ada "$house"
    says 'is no cache (19)' 'answer    good'
    unchanged
    cp "$folder/whole" "$cache"
}

hangs() {
    scene "a desk hangs in the middle of a filing, and goes on"
    desk 1 ada "$house"
    hang r1 r2
    desk 3 ada "$nobody"
    says "from the room's cache" 'answer    good'
    kill -CONT "$hung"
    finish 1 hung
    finish 2 waiting
    taken 3
    from_cache ada r1 r2
}

killed() {
    scene "a desk is killed in the middle of a filing"
    desk 1 ada "$house"
    hang r1 r2
    kill -KILL "$hung"
    was_killed
    echo "  Desk 1 is killed."
    finish 2 waiting
    says ': 2 of 64'
    desk 3 r1 "$house"
    says 'does not hold this card' ': 3 of 64'
    from_cache ada r1 r2
    keep
    (ulimit -c 0 && ulimit -f 4 && serve room r3 "$house") >"$said" &
    hung=$!
    was_killed
    part=$(wc -c <"$cache.new")
    [ "$part" -gt 0 ] && [ "$part" -lt 5568 ] || wrong "it wrote $part octets, and should have written a part"
    echo "  Desk 1, r3's card: is killed when it has written $part octets of the new cache"
    unchanged
    desk 2 r3 "$house"
    says 'does not hold this card' ': 4 of 64'
    from_cache ada r1 r2 r3
}

unwritten() {
    scene "the new cache can not be written"
    desk 1 ada "$house"
    keep
    echo "  Desk 2, r1's card:"
    (trap '' XFSZ && ulimit -f 4 && serve room r1 "$house") >"$said" || wrong "the desk ended with $?"
    show
    says 'folio     opens' 'filed     not, and the answer stands: File too large'
    unchanged
    desk 2 r1 "$house"
    says 'does not hold this card' ': 2 of 64'
}
