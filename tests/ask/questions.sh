# The octets that ./ask makes of its options: document 01's case.
printf '\060\003\012\001\006' >unauthorized.der
set -- unauthorized.der --serial 05 --name-hash $ones --key-hash $twos --now 2005-05-01T01:00:00Z \
    --tolerance 0 --verdict valid --role ca --marks none --signer-key $threes
is "the case's octets" "$(tool "$@" --octets)" "$case01"
shift
is "the question alone" "$(tool "$@" --octets)" "${case01%30030a0106}"

# The same octets go to the program, from a file and from standard input.
printf '\004\004\006' >slip.der
is "refused" "$(tool slip.der "$@" | sed -n 1p)" \
    "refused, number 4: the responder sent an error and no answer: status 6, unauthorized"
is "the program's name" "$(cat words)" desk
is "the program's input" "$(hex <input)" "${case01%30030a0106}040406"
printf '\004\004\003' | tool - "$@" >out
is "the program's input, from standard input" "$(hex <input)" "${case01%30030a0106}040403"

# Each field by other values, at its place: field FROM TO (octets, from 1) WANTED WORDS...
field() {
    from=$1 to=$2 wanted=$3
    shift 3
    given=$(tool --octets --serial 05 --name-hash $ones --key-hash $twos "$@")
    is "$*" "$(printf %s "$given" | cut -c$((2 * from - 1))-$((2 * to)))" "$wanted"
}
field 42 62 140102030405060708091011121314151617181920 \
    --serial "01:02:03:04:05:06:07:08:09:10 11 12 13 14 15 16 17 18 19 20"
field 42 46 0200800000 --serial 00:80
field 63 75 "$(printf %016x 1131407564)ffff020207" \
    --now 20051107235244Z --tolerance 65535 --verdict invalid --role delegate --marks all \
    --signer-key $threes
field 63 75 "$(printf %016x 951782400)0e11000305" \
    --now 2000-02-29T00:00:00Z --tolerance 3601 --role local --marks issued,current \
    --signer-key $threes
field 63 75 "$(printf %016x 253402300799)0000ff0002" \
    --now 9999-12-31T23:59:59Z --verdict 255 --role 0 --marks usage
field 63 75 "ffffffffffffffff0000010108" --now 18446744073709551615 --verdict 1 --role 1 --marks 8
field 76 103 "${twos}0000000000000000"
field 76 103 "${twos}0002300000000000" --signer-name 30:00
field 76 103 "00000000000000000000000000000000000000000002300000000000" \
    --role local --signer-name 3000
printf '\060\003\014\001\101' >name
field 76 103 "${threes}000530030c014100" --signer-key $threes --signer-name @name
before=$(date +%s)
given=$(tool --octets --serial 05 --name-hash $ones --key-hash $twos | cut -c125-140)
[ "$before" -le $((0x$given)) ] && [ $((0x$given)) -le "$(date +%s)" ] ||
    is "now is the current time" "$((0x$given))" "$before"

# Certificates. The hashes and the serial are what 'openssl ocsp -req_text' shows for the two files;
# the serial has its 00 in front. The issuer signs unless told otherwise, by its key and its Name.
hashes=52ae7879ccacf8826153895e159c4b2ebe59e8ff5224a6b2541bce6a137df740e1a4748c3bc2d22d
name=304b312c302a060355040a0c234578616d706c652046656465726174696f6e206f662052656164696e6720526f6f6d73
name=${name}311b301906035504030c124578616d706c652049737375696e67204341
given=$(tool --octets --card tests/ask/card.pem --issuer tests/ask/ca.pem)
is "the card of two certificates" "$(printf %s "$given" | cut -c3-124)" \
    "${hashes}030080010000000000000000000000000000000000"
is "the issuer as signer" "$(printf %s "$given" | cut -c151-348)" \
    "5224a6b2541bce6a137df740e1a4748c3bc2d22d004d${name}"
field 76 155 "f63f9bbf5962cc773e203d083bde6e51142b7650003a\
3038311d301b060355040a0c144578616d706c652052656164696e6720526f6f6d\
3117301506035504030c0e4578616d706c6520526561646572" --signer tests/ask/card.pem
tail -c +480 tests/published/openssl-D1.der | head -c 1012 >delegate.der
field 76 95 5fdae4031691a06308783f5cb61fd6d9dbf05034 --role delegate --signer delegate.der
