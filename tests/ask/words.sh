# What ./ask writes for the stand-in's slips and for bad values, its exit status and its help.
mkdir broken/folder.svg
transcripts ./ask tests/ask/words.txt tests/ask/values.txt tests/ask/answers.txt

# The exit status of the tool itself, and its help.
set -- --card tests/ask/card.pem --issuer tests/ask/ca.pem
./ask good.der "$@" >/dev/null
is "status of good" $? 0
tool unknown.der "$@" >/dev/null
is "status of unknown" $? 1
tool refusal-6.der "$@" >/dev/null
is "status of a refusal" $? 1
tool nothing.der "$@" >/dev/null 2>&1
is "status of bad use" $? 2
tool --help >out
is "status of --help" $? 0
for option in card issuer serial name-hash key-hash now tolerance verdict role marks signer \
    signer-key signer-name picture room octets hex slip refusals help; do
    grep -q -e "^  --$option " out || is "--help" "no --$option" "--$option"
done
for form in "--room FILE [RESPONSE.der] --card CERT --issuer CERT [OPTION...]" \
    "room FILE [--now TIME] [--tolerance SECONDS]" "room FILE --new"; do
    grep -q -F -x -e "       ./ask $form" out || is "--help" "no $form" "$form"
done
is "room --help" "$(tool room --help)" "$(cat out)"
