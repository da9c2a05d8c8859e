# The proved program desk.
if [ -e "$top/crates/desk/out/desk" ]; then
    cd "$top" || exit 2
    is "document 01's case" "$(./ask "$room/unauthorized.der" --serial 05 --name-hash $ones \
        --key-hash $twos --now 2005-05-01T01:00:00Z --verdict valid --signer-key $threes --hex |
        tail -n 1)" "slip 040406"
    is "a tolerance out of range" "$(./ask "$room/unauthorized.der" --serial 05 --name-hash $ones \
        --key-hash $twos --tolerance 3601 --hex | tail -n 1)" "slip 040100"
    is "a published response and its delegate" "$(./ask tests/published/openssl-D1.der \
        --name-hash a0720ea06a7c620254f2a8f59dd27ba4f3b72fa4 \
        --key-hash b0b04afd1c7528f81c61aa13f6fac1903d6b16a3 \
        --serial 1121bcbf1e08cc02e792a406d3902f33ed9b --now 2012-10-25T00:00:00Z --verdict valid \
        --role delegate --marks all --signer "$room/delegate.der" | sed -n 1p)" \
        "good: the responder says that this card is good"
    # Source document 000's sample A.2, without the certificate that it prints only in part. It writes its
    # version, 0, before the responder's Name.
    name=3038311e301c060355040a13154578616d706c65205472757374204e65\
74776f726b31163014060355040b130d4578616d706c652c20496e632e
    entry=180f32303035313130373233353234345a307330713049300906052b0e03021a05000414c0fe0278fc99188891b3f212\
e9c7e1b21ab7bfc004140dfc1df0a9e0f01ce7f2b213177e6f8d157cd4f6021009342372e23aef467c832d07f8dc22ba\
8000180f32303035313130373233353234345aa011180f32303035313131343233353234345a
    signature=300d06092a864886f70d0101050500038181000e9ff052b1a742b86ec135e10ed5a9e2f5c53c16b1a3a7a2038a2b4d2c\
f1b4988e19dbba1e1e72ff32f444e0b2771cd73c9e78f3d182688663127fa46ff04d84eaf8e2f75de34844572880c757\
3cfee1420e5e17fc60d805d9efe253e7ab7f3aa884aa5e465be7b81fc6b135adffd1ccba587de8296079f74102eae082\
0ea630
    sample() { # VERSION LINE: a line of what is said of the sample with this version
        files "$room/sample.der" "3082017b0a0100a08201743082017006092b0601050507300101048201613082015d3081c7a0030201${1}a13a$name$entry$signature"
        ./ask "$room/sample.der" --name-hash c0fe0278fc99188891b3f212e9c7e1b21ab7bfc0 \
            --key-hash 0dfc1df0a9e0f01ce7f2b213177e6f8d157cd4f6 --serial 09342372e23aef467c832d07f8dc22ba \
            --now 2005-11-07T23:52:44Z --verdict valid --signer-name "$name" | sed -n "$2p"
    }
    is "a written version 0" "$(sample 00 1)" "good: the responder says that this card is good"
    is "another version" "$(sample 01 1)" "$(./ask --slip 040300 | sed -n 1p)"
else
    echo "ask: the program desk is not built, so it is not tried"
fi

# The proved programs desk and trial: where responses break.
if [ -e "$top/crates/desk/out/desk" ] && [ -e "$top/crates/trial/out/trial" ]; then
    cd "$top" || exit 2
    breaks() { # RESPONSE OCTET: the line that tells where a response breaks
        is "where $1 breaks" "$(./ask "$1" --card tests/ask/card.pem --issuer tests/ask/ca.pem |
            sed -n 4p)" "  octet       $2"
    }
    breaks tests/published/cryptography-vectors-resp-unknown-response-status.der \
        "2 of 5, counted from 0 (hex 0002)"
    breaks tests/published/cryptography-vectors-resp-successful-no-response-bytes.der \
        "5 of 5, counted from 0 (hex 0005): the end of the response"
    breaks tests/published/cfssl-response.der "139 of 540, counted from 0 (hex 008b)"
    breaks tests/published/bouncycastle-invalidResp.der "4 of 1670, counted from 0 (hex 0004)"
    breaks tests/published/botan-patrickschmidt_ocsp_try_later_wrong_sig.der \
        "7 of 4235, counted from 0 (hex 0007)"
    breaks "$room/broken/day.der" "608 of 3587, counted from 0 (hex 0260)"
    is "another version: its place" "$(sample 01 4)" "  octet       39 of 383, counted from 0 (hex 0027)"
    "$python" -S -E tests/ask/walks.py tools ./run || failed=1
else
    echo "ask: desk and trial are not both built, so where responses break is not tried"
fi

# All three, on the README, whose room is made in a folder of its own.
if [ -e "$top/crates/desk/out/desk" ] && [ -e "$top/crates/room/out/room" ] && [ -e "$top/crates/trial/out/trial" ]; then
    mkdir "$room/readme"
    cd "$room/readme" || exit 2
    ln -s "$top/tests" tests
    transcripts "$top/ask" "$top/README.md"
else
    echo "ask: desk, room and trial are not all built, so the README is not tried"
fi
