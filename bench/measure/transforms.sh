#!/bin/bash
# Prints how many blocks a second the transforms of m2v_idct take, in one thread.
#
#   bench/measure/transforms.sh
#
# It makes a small program beside a copy of the crate in a folder of its own, proves and builds both (about a minute),
# and runs the program, which transforms four million blocks by each call. A block has six numbers that may be other
# than 0, in five lines; one of them changes each time. Run it on an idle machine; the gate does not run it.
set -euo pipefail

top=$(cd "$(dirname "${BASH_SOURCE[0]}")/../.." && pwd)
work=$(mktemp -d)
trap 'rm -rf "$work"' EXIT
mkdir -p "$work/crates"
cp "$top/HANDLES" "$work/"
printf 'm2v_idct:\nbench_transforms: m2v_idct\n' > "$work/crates.txt"
(cd "$top/crates" && tar -cf - --exclude=out --exclude=must-fail m2v_idct) | tar -xf - -C "$work/crates"

bench="$work/crates/bench_transforms"
mkdir -p "$bench/src" "$bench/proofs/sparse" "$bench/proofs/time_inverse" "$bench/proofs/time_forward"

cat > "$bench/src/main.rt" <<'RATTLE'
#![tactic(auto)]

ghost use Rattle.std.specs.Prelude.{All};
ghost use Rattle.m2v_idct.specs.Ranges.{IsCoefficient, IsSample};

use m2v_idct::{forward, inverse};
use std::io;
use std::time::Instant;

const BLOCKS: u32 = 4_000_000;

// A block of which six numbers may be other than 0.
fn sparse() -> [i32; 64]
    ensures { All IsSample result }
{
    let mut block = [0; 64];
    let mut seed = 7u32;
    for _ in 0..6 {
        seed = seed.wrapping_mul(1103515245).wrapping_add(12345);
        let at = (((seed >> 16) % 5) * 8 + (seed >> 20) % 5) as usize;
        block[at % 64] = ((seed >> 8) % 200) as i32 - 100;
    }
    block
}

#[inline(never)]
fn time_inverse(mut block: [i32; 64]) -> i32
    requires { All IsSample block }
{
    let mut sum = 0i32;
    for i in 0..BLOCKS {
        block[9] = (i % 200) as i32;
        sum = sum.wrapping_add(inverse(&block)[(i % 64) as usize]);
    }
    sum
}

#[inline(never)]
fn time_forward(mut block: [i32; 64]) -> i32
    requires { All IsSample block }
{
    let mut sum = 0i32;
    for i in 0..BLOCKS {
        block[9] = (i % 200) as i32;
        sum = sum.wrapping_add(forward(&block)[(i % 64) as usize]);
    }
    sum
}

fn main(rt: HostRuntime) -> io::Result<()> {
    let start = Instant::now(&rt)?;
    let sum = time_inverse(sparse());
    let micros = start.elapsed(&rt)?.as_micros().max(1);
    println!(rt; "inverse: {} blocks a second (sum {sum})", u128::from(BLOCKS) * 1_000_000 / micros)?;
    let start = Instant::now(&rt)?;
    let sum = time_forward(sparse());
    let micros = start.elapsed(&rt)?.as_micros().max(1);
    println!(rt; "forward: {} blocks a second (sum {sum})", u128::from(BLOCKS) * 1_000_000 / micros)
}
RATTLE

for f in sparse time_inverse time_forward; do
    loop=$([ "$f" = sparse ] && echo loop || echo loop-i)
    cat > "$bench/proofs/$f/Invariants.antt" <<PROOF
use Rattle.std.proofs.Common.{All}
use Rattle.m2v_idct.specs.Ranges.{IsSample}
use Rattle.bench_transforms.proofs.$f.Given as goal

abbrev pub invariant-$loop : goal.invariant-$loop
invariant-$loop l = All IsSample l.block
PROOF
    cat > "$bench/proofs/$f/Answers.antt" <<PROOF
use Rattle.std.proofs.Common.{arith, pos}
use Rattle.std.proofs.lemmas.Int.{ints}
use Rattle.std.proofs.lemmas.List.Elements.{All-replicate, All-set}
use Rattle.m2v_idct.specs.Ranges.{IsSample}
use Rattle.bench_transforms.proofs.$f.Goals as goal

pub $loop-preserved : goal.$loop-preserved
$loop-preserved c = All-set IsSample c.$loop.block _ _ (omega (arith, ints), omega (arith, ints)) c.$loop.invariant
PROOF
done
cat >> "$bench/proofs/sparse/Answers.antt" <<'PROOF'

pub loop-init : goal.loop-init
loop-init c = All-replicate IsSample 64 (pos 0) (omega (arith, ints), omega (arith, ints))
PROOF

cd "$bench"
rt run > "$work/log" 2>&1 || { cat "$work/log"; exit 1; }
grep 'blocks a second' "$work/log"
