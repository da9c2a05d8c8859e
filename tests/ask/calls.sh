# How ./ask is called: from another folder, by links, with Python's safe path and without. It finds its
# modules and the programs by its own place, whatever is named alike elsewhere, and writes nothing there.
mkdir -p calls/asking
echo 'raise SystemExit(9)' >calls/asking/__init__.py
ln -s ../ask calls/ask
ln -s calls/ask link
wanted=$(tool good.der $asked)
for called in ../ask ./ask "$room/link"; do
    for safe in '' 1; do
        is "called as $called, safe path '$safe'" "$(cd calls &&
            PYTHONPATH=. PYTHONSAFEPATH=$safe "$called" ../good.der $asked)" "$wanted"
    done
done
diff -r "$top/tools/asking" tools/asking || is "the modules" "changed" "as they were"
