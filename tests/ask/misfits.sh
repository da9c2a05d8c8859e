# Where a response breaks: what ./ask says, what it gives the program trial, and what it makes of its
# replies.
transcripts ./ask tests/ask/misfits.txt
"$python" -S -E "$top/tests/ask/walks.py" tools || failed=1

# The program trial is given operation 0a, the length of desk's input and that input; and only with
# refusal 3.
tool broken/day.der $asked >out
is "where it breaks: status" $? 1
input=$(hex <input)
has "where it breaks: the program's input" input-trial "0a$(printf %08x $((${#input} / 2)))$input"
rm input-trial
for file in good unknown refusal-1 refusal-6 refusal-7 refusal-8; do
    tool $file.der $asked >out
    [ ! -e input-trial ] || is "$file.der" "trial was asked" "trial is not asked"
done

# A program trial that fails, or writes what it should not: the answer is said without the place.
tool broken/status.der $asked | sed '/^where it breaks/,/\^^/d' >without
unplaced() { # NAME COMPLAINT
    tool broken/status.der $asked >out 2>err
    is "$1: status" $? 1
    is "$1" "$(cat out)" "$(cat without)"
    is "$1: the complaint" "$(cat err)" \
        "ask: the answer stands, and where the response breaks is not known: $2"
}
wrote="'./run trial' wrote no place:"
for answer in - '' 05 '2 ' ' 2' +2 '3 2' 123456 2.0 0x2 ٢; do
    printf '%s\n' "$answer" >answered
    unplaced "trial answers '$answer'" "$wrote it is not one line with a number; there is no place"
done
printf 2 >answered
unplaced "no line feed" "$wrote it is not one line with a number; there is no place"
printf '2\n2\n' >answered
unplaced "two lines" "$wrote it is not one line with a number; there is no place"
echo 6 >answered
unplaced "a place too far" "$wrote the response has no octet 6; there is no place"
echo 5 >answered
is "the last place" "$(tool broken/status.der $asked | sed -n 4p)" \
    "  octet       5 of 5, counted from 0 (hex 0005): the end of the response"
echo 3 >status-trial
unplaced "a program that fails" "'./run trial' failed with status 3, so there is no place"
rm answered status-trial
