# What ./ask does where a program fails or is not built.

# A program that fails, or writes more than a line, gives no answer, whatever it writes first.
echo 3 >status
none "a program that fails" "ask: './run desk' failed with status 3, so there is no answer"
echo 0 >status
echo 040406 >more
none "two lines" "ask: './run desk' wrote no slip: it is not one line of hex; there is no answer"
rm more

# A program that is not built is built by 'rt run' in its folder, here by a stand-in for rt.
rm crates/desk/out/desk
mkdir bin
cat >bin/rt <<'END'
#!/bin/sh
echo "proving $*"
[ ! -e ../../refuse ] && : >"out/${PWD##*/}"
END
chmod +x bin/rt
: >refuse
note="ask: the program desk is not built: running 'rt run' in crates/desk, which may take minutes"
path=$room/bin:$PATH
none "a program that cannot be built" "$note
proving run
ask: 'rt run' in crates/desk failed, so nothing was asked"
rm refuse
tool good.der --card tests/ask/card.pem --issuer tests/ask/ca.pem >out 2>err
is "status with a program just built" $? 0
is "the note on building" "$(cat err)" "$note"
rm crates/desk/out/desk
path=$room/nothing
none "no rt" "ask: the program desk is not built, and the Rattle kit's command rt, \
which builds it, is not on the PATH"

# Where the program trial is missing, the answer is said without the place. Here the stand-in runs, with
# the commands that it needs and without rt.
mkdir commands
for command in cat cksum dirname od sed tail tr; do
    ln -s "$(command -v $command)" commands
done
path=$room/commands
rm crates/trial/out/trial
: >crates/desk/out/desk
unplaced "no rt, for trial" "the program trial is not built, and the Rattle kit's command rt, \
which builds it, is not on the PATH"
is "a picture without the place" "$(tool broken/status.der $asked --picture a.svg 2>err | tail -n 1)" \
    "drawn in a.svg, without a box marked as refused"
is "a picture without the place: its words" "$(drawn a.svg | grep 'number 3')" \
    "refused with number 3; where it breaks is not known, so no box is marked"
path=$room/bin:$PATH
: >refuse
note="ask: the program trial is not built: running 'rt run' in crates/trial, which may take minutes"
tool broken/status.der $asked >out 2>err
is "a trial that cannot be built: status" $? 1
is "a trial that cannot be built" "$(cat out)" "$(cat without)"
is "a trial that cannot be built: the complaint" "$(cat err)" "$note
proving run
ask: the answer stands, and where the response breaks is not known: \
'rt run' in crates/trial failed, so nothing was asked"
rm refuse
tool broken/status.der $asked >out 2>err
is "a trial just built" "$(sed -n 3p out)" "where it breaks"
is "a trial just built: the note" "$(cat err)" "$note"

path=$room/nothing
rm crates/room/out/room
is "no rt, for a room" "$(tool room a.room 2>&1)" "ask: the program room is not built, and the \
Rattle kit's command rt, which builds it, is not on the PATH"
path=$PATH
: >crates/desk/out/desk
: >crates/room/out/room
