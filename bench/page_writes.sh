#!/bin/sh
# How long 1,000 page writes take on a device in memory of 1 MiB and on one of 64 MiB, and the ratio of the two.
# A page is written as a log writes it: its body, a sync, its gate, a sync, at 256 places that are spread over the
# device. What a write or a sync costs must not grow with the device, so the ratio should be near 1.
#
# The program is made in a temporary folder, proved and built there, and run five times; the least time of each
# device counts. The first run takes a few minutes where nothing is proved yet.
set -eu

here=$(cd "$(dirname "$0")/.." && pwd)
folder=$(mktemp -d)
trap 'rm -rf "$folder"' EXIT
mkdir -p "$folder/crates/page_writes/src" "$folder/crates/page_writes/specs"
for name in qsg_num qsg_disk qsg_disk_mem; do
    mkdir "$folder/crates/$name"
    for part in src specs proofs; do
        cp -R "$here/crates/$name/$part" "$folder/crates/$name/"
    done
done
cp "$here/HANDLES" "$folder/"
grep -E '^(qsg_num|qsg_disk|qsg_disk_mem):' "$here/crates.txt" > "$folder/crates.txt"
echo 'page_writes: qsg_disk qsg_disk_mem' >> "$folder/crates.txt"
: > "$folder/crates/page_writes/specs/Lib.antt"
cat > "$folder/crates/page_writes/src/main.rt" <<'PROGRAM'
//! Times 1,000 page writes on devices in memory of two sizes.
#![tactic(auto)]

use qsg_disk::Disk;
use qsg_disk_mem::MemDisk;
use std::io;
use std::time::Instant;

/// Writes the pages at 256 places that lie so many bytes apart. False where a call failed or a page didn't fit.
fn write_pages(disk: &mut MemDisk, apart: u32) -> bool {
    let body = [7; 4095];
    let mut done = true;
    for i in 0..1000u32 {
        let at = (i % 256).saturating_mul(apart);
        if u64::from(at) + 4096 > u64::from(disk.size()) {
            return false;
        }
        done &= disk.write(at + 1, &body).is_ok();
        done &= disk.sync().is_ok();
        done &= disk.write(at, &[1]).is_ok();
        done &= disk.sync().is_ok();
    }
    done
}

fn main(rt: HostRuntime) -> io::Result<()> {
    for (mib, size) in [(1, 1_048_576), (64, 67_108_864)] {
        if let Ok(mut disk) = MemDisk::new(rt.alloc(), size, Vec::new(rt.alloc())) {
            let start = Instant::now(&rt)?;
            let done = write_pages(&mut disk, size / 256);
            let micros = start.elapsed(&rt)?.as_micros();
            println!(rt; "{mib} {micros} {done}")?;
        }
    }
    Ok(())
}
PROGRAM

cd "$folder/crates/page_writes"
if ! rt run > "$folder/out" 2> "$folder/log"; then
    tail -n 20 "$folder/log" >&2
    exit 1
fi
for _ in 1 2 3 4 5; do
    out/page_writes
done | awk '
    $3 != "true" { failed = 1 }
    !($1 in least) || $2 < least[$1] { least[$1] = $2 }
    END {
        if (failed || !(1 in least) || !(64 in least)) { print "a call failed"; exit 1 }
        printf "1,000 page writes: %d microseconds on 1 MiB, %d on 64 MiB, ratio %.2f\n", least[1], least[64], least[64] / least[1]
    }'
