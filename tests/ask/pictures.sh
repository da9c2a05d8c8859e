# The picture of a response. Its boxes and their sizes are looked at by walks.py.
drawn() { # FILE: the words of a picture, a line each, where it is well-formed
    "$python" -S -E -c '
import sys
import xml.etree.ElementTree
for line in xml.etree.ElementTree.parse(sys.argv[1]).getroot().iter("{http://www.w3.org/2000/svg}text"):
    print("".join(line.itertext()))
' "$1"
}
colour() { grep -c 'class="refused"' "$1"; } # FILE: how many boxes are in colour

# One box is refused, in colour and in words; the answer and its status are as without the picture.
tool broken/status.der $asked >wanted
tool broken/status.der $asked --picture a.svg >out
is "a picture: status" $? 1
is "a picture: the answer" "$(cat out)" "$(cat wanted)
drawn in a.svg"
is "a picture: refused boxes" "$(colour a.svg)" 1
is "a picture: its words" "$(drawn a.svg)" "OCSPResponse tag 30, octets 0-4
responseStatus
tag 0a, octets 2-4
refused: octet 2
An OCSP response of 5 octets: each box is an element, with its tag and its octets, counted from 0
refused with number 3: the box in red, marked \"refused\"
octet
2 of 5, counted from 0 (hex 0002)
path
OCSPResponse > responseStatus
expected
responseStatus: tag 0a (ENUMERATED), contents 00, 01, 02, 03, 05 or 06
found
tag 0a (ENUMERATED), 1 octet of contents: 07"
tool broken/status.der $asked --picture b.svg >out
cmp a.svg b.svg || failed=1
is "what is beside a picture" "$(echo a.svg*)" a.svg
grep -E -q '<script|href|url\(|@import|<image' a.svg && is "a picture" "from outside" "of itself alone"

# What is missing is a box at the end of its holder; other entries stand together.
tool broken/missing.der $asked --picture a.svg >out
is "a missing element" "$(drawn a.svg | sed -n 2,6p)" "responseStatus
tag 0a, octets 2-4
responseBytes
missing
refused: octet 5"
tool broken/day.der $asked --picture a.svg >out
is "entries together" "$(drawn a.svg | grep -A 1 ' to ' | sed -n '1,2p;4,5p')" "SingleResponse 1 to 4
4 of them, octets 83-541
SingleResponse 6 to 20
15 of them, octets 644-2195"
is "the refused entry" "$(drawn a.svg | grep -B 2 '^refused: octet')" "thisUpdate
tag 18, octets 608-624
refused: octet 608"
tool broken/utc-time.der $asked --picture a.svg >out
cmp a.svg "$top/docs/misfit.svg" || { failed=1; echo "ask: docs/misfit.svg is not this picture"; }

# Without refusal 3 there is no refused box, and the picture says so; nor in a response that is too long.
tool good.der $asked --picture a.svg >out
is "a picture of another answer: status" $? 0
is "a picture of another answer" "$(tail -n 1 out)" "drawn in a.svg, without a box marked as refused"
is "a picture of another answer: refused boxes" "$(colour a.svg)" 0
is "a picture of another answer: its words" "$(drawn a.svg | tail -n 1)" \
    "no box is marked as refused: the answer is not refusal 3"
is "a long response" "$("$python" -S -E -B -c '
import sys
sys.path.insert(0, "tools")
from asking.pictures import picture
from asking.walk import Walk
print(picture(Walk(bytes(16385)), 2))' >long.svg; drawn long.svg)" "the whole response
octets 0-16384
An OCSP response of 16385 octets: each box is an element, with its tag and its octets, counted from 0
no box is marked as refused: the answer is not refusal 3
longer than 16,384 octets, so not drawn in boxes"

# A link stays one, and the file behind it keeps its mode. A file that cannot be written any more when
# the answer is there: the answer stands, with its status.
chmod 640 b.svg
ln -s b.svg link.svg
tool broken/utc-time.der $asked --picture link.svg >out
is "a picture by a link" "$(tail -n 1 out)" "drawn in $room/b.svg"
[ -L link.svg ] && is "the picture's mode" "$(ls -l b.svg | cut -c1-10)" "-rw-r-----"
cmp b.svg "$top/docs/misfit.svg" || failed=1
is "a picture that is not written" "$("$python" -S -E -B -c '
import sys
sys.path.insert(0, "tools")
from asking.answers import draw_answer
from asking.slips import slip_of
from asking.walk import Walk
draw_answer("nothing/a.svg", Walk(b"", 0), slip_of(bytes([4, 3, 0])))' 2>&1)" \
    "ask: the answer stands, and is not drawn: cannot write nothing/a.svg.new: No such file or directory"
