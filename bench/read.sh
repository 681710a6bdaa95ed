#!/usr/bin/env bash
# Times `read_model` of the crate `bumblebee_reader` on a text of the whole language of nearly 16 MB, and prints the
# items, the bytes and the seconds. It builds a small program over a copy of the crates. Wants python3 and rt.
set -eu
top=$(cd "$(dirname "${BASH_SOURCE[0]}")/.." && pwd)
folder=$(mktemp -d)
trap 'rm -rf "$folder"' EXIT
git init -q "$folder"
mkdir -p "$folder/crates/reading/src"
cp -r "$top/crates/bee_list" "$top/crates/bee_text" "$top/crates/bumblebee_reader" "$folder/crates/"
grep -E '^(bee_list|bee_text|bumblebee_reader):' "$top/crates.txt" >"$folder/crates.txt"
echo 'reading: bumblebee_reader' >>"$folder/crates.txt"
cat >"$folder/crates/reading/src/main.rt" <<'RT'
//! Reads the model on standard input, and prints how many items it has.
#![tactic(auto)]

use bumblebee_reader::read_model;
use std::io;
use std::io::Read;
use std::time::Instant;

fn main(rt: HostRuntime) -> io::Result<()> {
    let alloc = rt.alloc();
    let mut text = Vec::new(alloc);
    rt.reader().read_to_end(&mut text)?;
    let start = Instant::now(&rt)?;
    let items = match read_model(alloc, text.as_slice()) {
        Ok(syntax) => syntax.items.len(),
        Err(_) => 0,
    };
    let took = start.elapsed(&rt)?.as_millis();
    println!(rt; "{items} items in {took} ms")
}
RT
(cd "$folder/crates/reading" && echo | rt run >"$folder/log" 2>&1) || { tail -n 20 "$folder/log" >&2; exit 1; }
python3 - "$folder/crates/reading/out/reading" <<'PY'
import random, subprocess, sys
random.seed(1)
lines, size = [], 0
while size < 16_700_000:
    n = len(lines)
    if n % 3 == 0:
        line = f"new_int(x{n}, -{n % 1000}, {n})  % declared"
    elif n % 3 == 1:
        terms = ",".join(f"x{random.randrange(0, n, 3)}" for _ in range(8))
        line = f"int_array_sum_leq([{terms}], {n})"
    else:
        line = f"bool_array_or([b{n}, -b{n - 1}, true])"
    lines.append(line)
    size += len(line) + 1
text = ("\n".join(lines) + "\nsolve satisfy\n").encode()
print(len(text), "bytes:", subprocess.run([sys.argv[1]], input=text, capture_output=True, text=False).stdout.decode().strip())
PY
