# Sums up the log of a gate, each line of which stands behind the second at which it came: when rt ci had proved a crate, and what
# .ci/refusals says of its edits, then the parts by the clock.

function number(text) { gsub(/[^0-9]/, "", text); return text + 0 }

function clock(seconds, part) { parts = parts sprintf("%6d  %s\n", seconds, part) }

$2 == "begins" { began = $1 }

# rt: NAME proved, or of one that an earlier run proved: rt: NAME is kept: ..
$2 == "rt:" && ($4 == "proved" && NF == 4 || $4 " " $5 == "is kept:") { proved[$3] = $1 - began; if (proved[$3] > last) last = proved[$3] }

# crates/NAME/edits/LABEL.edit: .. (N s)
$2 ~ /^crates\/.*\.edit:$/ && $NF == "s)" { split($2, name, "/"); edit[name[2]] += number($(NF - 1)); edits[name[2]]++ }

$2 == "ends" { seconds = $1 - began; sub(/^[0-9]+ ends /, ""); clock(seconds, $0) }

# beside N COMMAND
$2 == "beside" { clock($3, "beside the others:" substr($0, index($0, $3) + length($3))) }

END {
    print "the second at which it was proved, seconds of edits and the number of their files, by crate:"
    sorted = "sort -k2,2nr -k1,1nr"
    for (crate in proved) {
        printf "%6d %6d %4d  %s\n", proved[crate], edit[crate], edits[crate], crate | sorted
        all += edit[crate]; count += edits[crate]
    }
    close(sorted)
    printf "%6d %6d %4d  all\n", last, all, count
    printf "seconds by the clock:\n%s", parts
}
