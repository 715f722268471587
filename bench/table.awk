# The rows of main.c as a table, and what is aimed at (docs/DECISIONS.md says why).
BEGIN {
    FS = "\t"
    what["map"] = "map"; what["map0"] = "map from line 0"; what["map-phased"] = "map with phases"
    what["plain"] = "plain map"; what["vectors"] = "vectors"
    what["first"] = "first hit"; what["first-phased"] = "first hit with phases"
    what["list"] = "listing"; what["list-phased"] = "listing with phases"
    what["save"] = "save"; what["read"] = "read"; what["blank"] = "blanking list"; what["count"] = "map, instructions"
    print "Every figure but ours is a time divided by ours: above 1, ours is faster. *Naive* takes a remainder on each line, *C*, *clang* and"
    print "*Rust* go the same walk without blocks, *limit* is a `memset` of the map (`memcpy` of the cells for save and read). The time is the"
    print "processor time of the thread. The interval changes with every call; what a call writes is cleared before it, outside the time, but in"
    print "the rows *plain map*; all contenders must leave the same bytes. Medians of 5 to 41 repetitions, the ratios taken within a repetition"
    print "(those of *adding and memset* between rows). Periods by a fixed seed: 30 of 3 to 2,000 (mix), 1,000 of 4,096 to 2^20, 1,000 of 4,096"
    print "to 2^31. The peers judge nothing that they are given but the blocks of a file and the room of a blanking list; ours judges all of it,"
    print "within the time. The rows *map*, *map from line 0*, *map with phases* and *map, instructions* are of the adding call, on a map of"
    print "zeros. In the rows *plain map* each call finds the map full of 255 and clears it within its time, *naive*, *C*, *clang* and *Rust* by"
    print "a `memset` before they add; the *limit* is that `memset` alone. The rows *map, instructions* are counts by callgrind, with the set-up,"
    print "and their ratios are ratios of counts. Runs begin at line 1, where few sources with a long period have a hit; in the rows *map from"
    print "line 0* every source has one on the first line, so that its vectors are always worked out. All phases are 0 but in the rows *with"
    print "phases*, where they are any below the periods, by the same seed. In the rows *save* and *read* the column of the periods says how *C*"
    print "and *clang* work out a block's check, by its weighted sum or in two columns; ours always has the columns, as request E4 wants them. In"
    print "the rows *blanking list* the column of the periods says how many lines reach the threshold (one of 50 by any cell, or 15 of 16 by one"
    print "of the guard's first eight) and how much of the window is guarded; *C*, *clang* and *Rust* go over the lines twice as ours does, to"
    print "count the stretches and to write them, and the *limit* is one pass over the guard cells that have to be looked at, for the largest of"
    print "each line."
    print ""
    print "| what | periods | window | MiB | ours | naive | C, gcc -O2 | C, clang -O3 | Rust | limit |"
    print "|---|---|--:|--:|--:|--:|--:|--:|--:|--:|"
}

function short(x) { return x == "-" ? "" : x >= 100 ? sprintf("%.0f", x) : x >= 10 ? sprintf("%.1f", x) : sprintf("%.2f", x) }

{
    split($1, name, " ")
    ours = name[1] == "count" ? short($3) " a hit" : name[1] ~ /^(map|plain)/ && $5 < 20000 ? short($4 / 1000) " µs a call" : short($3) " ns a " $2
    for (k = 2; k <= 4; k++) if (name[k] == "-") name[k] = ""
    sub(/-/, ", ", name[2])
    print "| " what[name[1]] " | " name[2] " | " name[3] " | " name[4] " | " ours " | " short($6) " | " short($7) " | " short($8) " | " short($9) " | " short($10) " |"
    ours_of[$1] = $3; call_of[$1] = $4; naive[$1] = $6; gcc[$1] = $7; clang[$1] = $8; rust[$1] = $9; limit[$1] = $10
}

function verdict(met) { return met ? "met" : "**missed**" }
function aim(text, value, least) { print "| " text " | ≥ " least " |  | " short(value) " |  | " verdict(value >= least) " |" }

# A row for each peer: its time over ours at the three windows.
function peer(text, set, size, least, by, ratio,    at, k, line, met) {
    met = 1
    for (k = 1; k <= 3; k++) {
        at = ratio[set " " windows[k] " " size]
        line = line " | " short(at)
        met = met && at >= least
    }
    print "| " by " / ours, " text " | ≥ " least line " | " verdict(met) " |"
}
function peers(text, set, size, least) {
    peer(text, set, size, least, "gcc", gcc)
    peer(text, set, size, least, "Rust", rust)
}
# The same of a row at the window of 512 alone.
function peers_at_512(text, row, least) {
    aim("gcc / ours, " text, gcc[row], least)
    aim("Rust / ours, " text, rust[row], least)
}

# Clearing is to cost a memset at most: our adding call and a memset, over our plain call, by the call; a twentieth is left for the
# difference between rows.
function clearing(set, size,    at, k, plain, both) {
    for (k = 1; k <= 3; k++) {
        at = set " " windows[k] " " size
        plain = call_of["plain " at]
        both[at] = (call_of["map " at] + limit["plain " at] * plain) / plain
    }
    peer("plain map, " set ", " size " MiB", set, size, 0.95, "adding and memset", both)
}

END {
    split("64 512 4096", windows, " ")
    print ""
    print "| aimed at, at windows of | aim | 64 | 512 | 4096 | |"
    print "|---|--:|--:|--:|--:|---|"
    n = split("mix 1 1.0,mix 64 1.0,2^20 1 1.0,2^20 64 1.0,2^31 1 1.5,2^31 64 1.5", rows, ",")
    kinds = split("map,map0,map-phased", kind, ",")
    for (j = 0; j < kinds * n; j++) {
        map = kind[1 + int(j / n)]
        split(rows[1 + j % n], name, " ")
        peers(what[map] ", " name[1] ", " name[2] " MiB", map " " name[1], name[2], name[3])
    }
    for (j = 1; j <= n; j++) {
        split(rows[j], name, " ")
        peers("plain map, " name[1] ", " name[2] " MiB", "plain " name[1], name[2], 1.0)
        clearing(name[1], name[2])
    }
    peers("first hit, 2^20", "first 2^20", 64, 1.0)
    peers("first hit, 2^31", "first 2^31", 64, 1.0)
    peers_at_512("first hit with phases, 2^20", "first-phased 2^20 512 64", 1.0)
    peers("vectors, 2^20", "vectors 2^20", "-", 0.9)
    peers("vectors, 2^31", "vectors 2^31", "-", 0.9)
    peers("listing, mix, 1 MiB", "list mix", 1, 0.9)
    peers("listing, 2^20, 64 MiB", "list 2^20", 64, 0.9)
    peers_at_512("listing with phases, 2^20, 64 MiB", "list-phased 2^20 512 64", 0.9)
    n = split("mix 1 2.5 2.5,mix 64 4 4,2^20 1 45 45,2^20 64 45 45,2^31 1 45 45,2^31 64 1000 45", rows, ",")
    kinds = split("map,plain", kind, ",")
    for (j = 0; j < kinds * n; j++) {
        k = 1 + int(j / n)
        split(rows[1 + j % n], name, " ")
        aim("naive / ours, " what[kind[k]] ", " name[1] ", " name[2] " MiB", naive[kind[k] " " name[1] " 512 " name[2]], name[2 + k])
    }
    n = split("sparse-half 1,sparse-half 64,sparse-all 1,sparse-all 64,dense-half 1,dense-half 64,dense-all 1,dense-all 64", rows, ",")
    for (k = 1; k <= n; k++) {
        split(rows[k], name, " ")
        text = " / ours, blanking list, " name[1] ", " name[2] " MiB"
        sub(/-/, ", ", text)
        aim("gcc" text, gcc["blank " name[1] " 512 " name[2]], 0.8)
        aim("clang" text, clang["blank " name[1] " 512 " name[2]], 0.8)
    }
    n = split("mix 512 1,2^20 512 64", rows, ",")
    for (k = 1; k <= n; k++) {
        split(rows[k], name, " ")
        v = ours_of["count " rows[k]]
        print "| instructions a hit, " name[1] ", " name[3] " MiB | ≤ 18 |  | " short(v) " |  | " verdict(v <= 18) " |"
    }
}
