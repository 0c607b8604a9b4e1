#!/bin/sh
# How long whole runs take: scripts of so many puts with a COMMIT after every 100, and then as many gets with a COMMIT
# after every 100, by one task of one member, and by one task of each of eight members on queues of their own. For each
# the bytes of the report and the seconds, and both as ratios to the row above it, which has half as many puts.
#
# Reading and reporting take time linear in the bytes. What isn't linear is the list structure, which is a plain list: a
# put counts the entries of its structure, and a get looks through them, so n puts and n gets take time by n * n: the
# ratio of the seconds comes to 4 once these scans outweigh the rest, and above it where the entries no longer fit the
# processor's caches.
#
# Sizes may be given as words, as bench/whole_runs.sh 10000 20000 40000; the default is smaller.
set -eu

here=$(cd "$(dirname "$0")/.." && pwd)
folder=$(mktemp -d)
trap 'rm -rf "$folder"' EXIT
[ $# -gt 0 ] || set -- 2500 5000 10000

# a script of so many puts and gets in all, by so many members
script() {
    awk -v puts="$1" -v members="$2" 'BEGIN {
        print "GROUP QSG1"
        for (m = 1; m <= members; m++) print "MEMBER QM" m
        print "DEFINE CFSTRUCT(APP1) CFLEVEL(5) OFFLOAD(SMDS) DSGROUP(\047QSG1.*.APP1\047)"
        for (m = 1; m <= members; m++) print "DEFINE QLOCAL(Q" m ") QSGDISP(SHARED) CFSTRUCT(APP1)"
        print "FACILITY APP1 ELEMENTS(1048576)"
        for (m = 1; m <= members; m++) {
            print "TASK QM" m " 1"
            for (i = 1; i <= puts / members; i++) { print "PUT Q" m " BODY(\047message\047)"; if (i % 100 == 0) print "COMMIT" }
            print "COMMIT"
            for (i = 1; i <= puts / members; i++) { print "GET Q" m; if (i % 100 == 0) print "COMMIT" }
            print "COMMIT"
        }
        print "END"
    }'
}

for members in 1 8; do
    for puts in "$@"; do
        script "$puts" "$members" > "$folder/script"
        began=$(date +%s%N)
        "$here/qsg" replay < "$folder/script" > "$folder/report"
        ended=$(date +%s%N)
        [ "$(tail -n 1 "$folder/report")" = finished ] || { echo "the run of $puts puts isn't finished"; exit 1; }
        echo "$members $puts $(wc -c < "$folder/report") $(( (ended - began) / 1000 ))"
    done
done | awk '
    BEGIN { print "members  puts and gets  report bytes  ratio  seconds  ratio" }
    {
        again = ($1 == members)
        printf "%7d  %13d  %12d  %5s  %7.2f  %5s\n", $1, $2, $3, again ? sprintf("%.2f", $3 / bytes) : "-", $4 / 1e6, again ? sprintf("%.2f", $4 / micros) : "-"
        members = $1; bytes = $3; micros = $4
    }'
