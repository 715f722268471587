# README.md with what stands between its two markers made anew from RESULTS.md: the machine, the date, and the rows of the map and of
# the blanking list at a window of 512, as they stand there.
#   awk -f readme.awk RESULTS.md README.md
FNR == NR {
    if (/^# Measured on /) date = $4
    if (sub(/^- Machine: /, "")) { sub(/; load.*/, ""); machine = $0 }
    if (/^\| what / || /^\|---\|---\|-/ || /^\| (map|map from line 0|map with phases|plain map|blanking list) \| [^|]* \| 512 \|/) rows = rows $0 "\n"
    next
}
/^<!-- end of the measured rows -->$/ { ends++; within = 0 }
!within { print }
/^<!-- measured rows, written by bench\/run -->$/ { begins++; within = 1; print "\nOn " machine ", " date ":\n\n" rows }
END {
    if (rows != "" && begins == 1 && ends == 1 && !within) exit
    print "readme.awk: no rows, or README.md has not its two markers" >"/dev/stderr"
    exit 1
}
