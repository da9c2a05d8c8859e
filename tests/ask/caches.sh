# The proved program room. Slips for four cards: that of stage.sh; its serial with another key hash, and
# with another name hash; another serial.
other=$ones${threes}0105$(printf %038d 0)
third=$ones${twos}020080$(printf %036d 0)
fourth=$threes${twos}0105$(printf %038d 0)
first_days=0000000042742a10000000004276cd10
later_days=0000000042781e90000000004279700f
later=01$card$later_days
revoked=02$other${first_days}000000004272ca8006
future=03$third$later_days
if [ -e "$top/crates/room/out/room" ]; then
    full=
    for serial in $(seq 0 63); do
        full="$full 01$threes${threes}01$(printf %02x "$serial")$(printf %038d 0)$first_days"
    done
    files later.der "$later" revoked.der "$revoked" future.der "$future" refusal-16.der 041000 \
        fourth.der "01$fourth$first_days" fourth-later.der "01$fourth$later_days" \
        full.room "$(cache $full)" \
        octet.room "$(cache "$good" "$revoked" "04${future#03}")" \
        behind.room "$(cache "${good}01")" \
        refusal.room "$(cache '' 041000)" \
        twice.room "$(cache "$good" "$revoked" "$later")" \
        serial.room "$(cache "$(printf %s "$good" | sed s/0105/0185/)")" \
        short.room "$(cache "$good" | cut -c3-)" longer.room "$(cache "$good")00" none.room ''
    mkdir before
    cp ./*.room before
    transcripts ./ask tests/ask/rooms.txt
    for file in octet behind refusal twice serial short longer none; do
        cmp "$file.room" "before/$file.room" || failed=1
        is "beside $file.room" "$(echo "$file".room*)" "$file.room"
    done
    has "the room's octets" desks.room "$(cache "$later" "$revoked" "$future")"
    has "the full room's octets" full.room \
        "$(cache "01$fourth$later_days" $(printf '%s\n' $full | sed 1d))"

    # A response is looked at where the cache is broken, and the cache is kept.
    tool good.der $asked >wanted
    tool --room octet.room good.der $asked >out 2>err
    is "a broken cache and a response: status" $? 0
    is "a broken cache and a response" "$(cat out)" "$(cat wanted)"
    is "a broken cache and a response: the complaint" "$(cat err)" \
        "ask: octet.room: refused, number 19: the octets are not a room's cache; \
place 3: no slip of kind 04 belongs in a cache; the file is kept as it is"
    tool --room octet.room unknown.der $asked >out 2>err
    is "a broken cache and unknown: status" $? 1
    cmp octet.room before/octet.room || failed=1
    is "beside a broken cache" "$(echo octet.room*)" octet.room

    # A file that cannot be written: the answer stands, with its status.
    files a.room "$(cache)" b.room "$(cache)"
    rm a.room.lock
    mkdir a.room.new b.room.lock
    unwritten() { # FILE WORDS
        tool --room "$1" good.der $asked >out 2>err
        is "$2: status" $? 0
        is "$2" "$(cat err)" "ask: $kept $2: Is a directory"
        has "$2: the file" "$1" "$(cache)"
    }
    unwritten a.room "cannot write a.room.new"
    unwritten b.room "cannot lock b.room.lock"
    rmdir a.room.new

    # What a killed writer left beside does not matter; the file keeps its mode, and a link stays one.
    files a.room.new 5a
    chmod 640 a.room
    ln -s a.room link.room
    tool --room link.room good.der $asked >out
    has "by a link" a.room "$(cache "$good")"
    is "by a link: what is there" "$(echo a.room* link.room*)" "a.room a.room.lock link.room"
    [ -L link.room ] || is "the link" "$(ls -l link.room)" "a link"
    is "the file's mode" "$(ls -l a.room | cut -c1-10)" "-rw-r-----"
    is "--hex" "$(tool --room link.room --hex $asked | tail -n 1)" "slip $good"

    # Filing waits for the lock, and files in the cache that is there then.
    files a.room "$(cache)" b.room "$(cache "$revoked")"
    is "the lock" "$("$python" -S -E -c '
import fcntl, os, subprocess, sys, time
with open("a.room.lock", "ab") as lock:
    fcntl.flock(lock, fcntl.LOCK_EX)
    asking = subprocess.Popen(sys.argv[1:], stdout=subprocess.PIPE, text=True)
    for line in asking.stdout:
        if line.startswith("  signer"):
            break
    time.sleep(0.5)
    os.replace("b.room", "a.room")
print(asking.stdout.read(), end="")
' "$python" -S -E ./ask --room a.room good.der $asked)" "the room's cache a.room
  before      not held: no place of the room's cache has this card
  after       filed; 2 of 64 places filled"
    has "the lock: the file" a.room "$(cache "$revoked" "$good")"
else
    echo "ask: the program room is not built, so it is not tried"
fi
