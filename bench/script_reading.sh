#!/bin/sh
# How long it takes to read a script of 1 MiB and one of 4 MiB, and the ratio of the two. The scripts are one member
# with one task, which puts and gets messages by turns, with a comment and a joined line among the statements. Reading
# must take time linear in the bytes, so the ratio should be near 4.
#
# The program is made in a temporary folder, proved and built there, and run five times; the least time of each script
# counts. The first run takes long where nothing is proved yet, since the reader stands on ten crates.
set -eu

here=$(cd "$(dirname "$0")/.." && pwd)
folder=$(mktemp -d)
trap 'rm -rf "$folder"' EXIT
mkdir -p "$folder/crates/script_reading/src" "$folder/crates/script_reading/specs"
for name in qsg_num qsg_objects qsg_lines mqsc_lex mqsc_values mqsc_define mqsc_admin qsg_draft qsg_grammar \
    qsg_statement qsg_script; do
    mkdir "$folder/crates/$name"
    for part in src specs proofs; do
        cp -R "$here/crates/$name/$part" "$folder/crates/$name/"
    done
    grep -E "^$name:" "$here/crates.txt" >> "$folder/crates.txt"
done
cp "$here/HANDLES" "$folder/"
echo 'script_reading: qsg_script' >> "$folder/crates.txt"
: > "$folder/crates/script_reading/specs/Lib.antt"
cat > "$folder/crates/script_reading/src/main.rt" <<'PROGRAM'
//! Times the reading of scripts of two sizes.
#![tactic(auto)]

use qsg_script::read;
use std::alloc::{AllocError, Global};
use std::io;
use std::time::Instant;

/// What stands before the statements that are repeated.
const FRONT: &[u8] = b"GROUP QSG1\nMEMBER QM1\nTASK QM1 1\n";

/// Some statements of a task, with a comment and a joined line.
const STATEMENTS: &[u8] = b"* one put and one get\nPUT Q1 BODY('a message') PRI(5) +\n    PERS(1)\nCOMMIT\nGET Q1\nCOMMIT\n";

/// A script of so many bytes, or a few less.
fn script(alloc: Global, bytes: usize) -> Result<Vec<u8>, AllocError> {
    let mut script = Vec::from_slice(alloc, FRONT)?;
    for _ in 0..(bytes.saturating_sub(64)) / STATEMENTS.len() {
        script.extend_from_slice(STATEMENTS)?;
    }
    script.extend_from_slice(b"END\n")?;
    Ok(script)
}

fn main(rt: HostRuntime) -> io::Result<()> {
    for (mib, bytes) in [(1, 1_048_576), (4, 4_194_304)] {
        if let Ok(script) = script(rt.alloc(), bytes) {
            let start = Instant::now(&rt)?;
            let done = read(rt.alloc(), script.as_slice()).is_ok();
            let micros = start.elapsed(&rt)?.as_micros();
            println!(rt; "{mib} {micros} {done}")?;
        }
    }
    Ok(())
}
PROGRAM

cd "$folder/crates/script_reading"
if ! rt run > "$folder/out" 2> "$folder/log"; then
    tail -n 20 "$folder/log" >&2
    exit 1
fi
for _ in 1 2 3 4 5; do
    out/script_reading
done | awk '
    $3 != "true" { failed = 1 }
    !($1 in least) || $2 < least[$1] { least[$1] = $2 }
    END {
        if (failed || !(1 in least) || !(4 in least)) { print "a script was not read"; exit 1 }
        printf "reading a script: %d microseconds for 1 MiB, %d for 4 MiB, ratio %.2f\n", least[1], least[4], least[4] / least[1]
    }'
