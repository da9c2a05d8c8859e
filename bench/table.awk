# results.tsv as a table in plain text, and whether the aims are met: status 1 where one is not.
function commas(n,    s) {
    s = n ""
    while (match(s, /[0-9][0-9][0-9][0-9]($|,)/)) s = substr(s, 1, RSTART) "," substr(s, RSTART + 1)
    return s
}
function times(r, p) { return cost[r, p] / cost[r, "pass"] }
function verdict(ok, text) { printf "%-7s %s\n", ok ? "met" : "MISSED", text; if (!ok) missed = 1 }
BEGIN {
    FS = "\t"
    peers = split("desk signed plain wolfssl openssl", peer, " ")
    split("desk_check,desk_signed,plain C,wolfSSL,OpenSSL", title, ",")
}
NR == 1 { next }
$1 == "request" { cost["request", $4] = $5; written[$4] = $6; next }
$1 == "cache" { cost[$2 $3, $4] = $5; said[$2 $3, $4] = $6; next }
!($1 in octets) { shape[++shapes] = $1 }
{ octets[$1] = $2; entries[$1] = $3; cost[$1, $4] = $5; said[$1, $4] = $6 }
END {
    print "Executed x86-64 instructions for one response, and how many times one pass over its octets"
    print ""
    printf "%-30s %6s %7s %9s", "response", "octets", "entries", "one pass"
    for (k = 1; k <= peers; k++) printf "  %19s", title[k]
    print ""
    for (i = 1; i <= shapes; i++) {
        r = shape[i]
        printf "%-30s %6s %7d %9s", r, commas(octets[r]), entries[r], commas(cost[r, "pass"])
        for (k = 1; k <= peers; k++) printf "  %10s %8.2f", commas(cost[r, peer[k]]), times(r, peer[k])
        print ""
    }
    print ""
    printf "The request for a card, %d octets: desk_request %d; a copy of them: %d by a loop, %d by memcpy\n", written["request"], cost["request", "request"], cost["request", "copy"], cost["request", "memcpy"]
    print ""
    print "The room\047s cache, 5,568 octets: executed instructions, and how many times one pass over them"
    print ""
    printf "%-8s %-34s %9s  %19s  %19s\n", "filled", "card", "one pass", "desk_cache_ask", "desk_cache_file"
    caches = split("empty half full alike", cache, " ")
    cards = split("held new", card, " ")
    worst = 0
    for (i = 1; i <= caches; i++)
        for (j = 1; j <= cards; j++) {
            r = cache[i] card[j]
            about = card[j] == "new" ? "one that no place has" : cache[i] == "empty" ? "another" : "that of the last filled place"
            printf "%-8s %-34s %9s", cache[i], about, commas(cost[r, "pass"])
            for (k = 1; k <= 2; k++) {
                p = k == 1 ? "cacheask" : "cachefile"
                printf "  %10s %8.2f", commas(cost[r, p]), times(r, p)
                if (times(r, p) > worst) worst = times(r, p)
            }
            print ""
        }
    print ""
    verdict(worst <= 0.7, sprintf("the cache: at most 0.7 of one pass: %.2f", worst))
    verdict(times("fullheld", "cacheask") <= 0.5, sprintf("an ask, full: at most half a pass: %.2f", times("fullheld", "cacheask")))
    verdict(times("emptynew", "cacheask") <= 0.25, sprintf("an ask, empty: at most a quarter of a pass: %.2f", times("emptynew", "cacheask")))
    verdict(times("entries-64", "desk") <= 2, sprintf("64 entries: at most 2 times one pass: %.2f", times("entries-64", "desk")))
    verdict(times("entries-1", "desk") <= 3, sprintf("1 entry, RSA: at most 3 times one pass: %.2f", times("entries-1", "desk")))
    verdict(times("ecdsa-1", "desk") <= 3, sprintf("1 entry, ECDSA: at most 3 times one pass: %.2f", times("ecdsa-1", "desk")))
    for (k = 4; k <= peers; k++) {
        behind = ""
        for (i = 1; i <= shapes; i++)
            if (cost[shape[i], "desk"] >= cost[shape[i], peer[k]]) behind = behind " " shape[i]
        verdict(behind == "", "ahead of " title[k] " on every response" (behind == "" ? "" : "; not on" behind))
    }
    more = cost["entries-1", "desk"] - cost["entries-1", "signed"]
    verdict(more <= 900, sprintf("1 entry: desk_check at most 900 more than desk_signed: %s", commas(more)))
    beside = cost["entries-64", "desk"] / cost["entries-64", "plain"]
    verdict(beside <= 1.05, sprintf("64 entries: at most 1.05 times plain C: %.3f", beside))
    copies = cost["request", "request"] / cost["request", "copy"]
    verdict(written["request"] == written["copy"] && copies <= 2, sprintf("a request: at most 2 times a copy of its octets: %.2f", copies))
    split("good revoked unknown none", word, " ")
    for (i = 1; i <= shapes; i++) {
        r = shape[i]
        for (k = 3; k <= peers; k++)
            if (said[r, peer[k]] != said[r, "desk"])
                printf "%-7s %s: desk_check says %s, %s says %s\n", "note", r, word[said[r, "desk"]], title[k], word[said[r, peer[k]]]
    }
    exit missed
}
