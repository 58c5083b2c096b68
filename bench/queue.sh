#!/bin/sh
# Counts what a taking of the queue alone costs: of the first 400 while 4,000 items of 16 bytes wait, and of the others in the
# mean. It proves and builds a loop over osc_queue in a folder of its own first, and leaves this checkout as it is.
#
#     bench/queue.sh
#
# It needs valgrind, and what bin/osc needs.
set -eu
here=$(cd "$(dirname "$0")" && pwd)
top=$(dirname "$here")
work=$(mktemp -d)
trap 'rm -rf "$work"' EXIT

mkdir -p "$work/crates"
for crate in osc_pattern osc_queue; do cp -r "$top/crates/$crate" "$work/crates/$crate"; done
cp "$top/HANDLES" "$work"
printf 'osc_pattern:\nosc_queue: osc_pattern\nqueue_loop: osc_queue\n' > "$work/crates.txt"
loop=$work/crates/queue_loop
mkdir -p "$loop/src" "$loop/proofs/enter_one" "$loop/proofs/fill"
: > "$loop/stdin"

cat > "$loop/src/main.rt" <<'END'
// Fills a queue and takes all of it, so that a profiler can count what a taking costs.
#![tactic(auto)]

ghost use Rattle.std.specs.Prelude.{◌≡◌, ◌+◌, ◌≤◌, ◌<◌, [], length};
ghost use Rattle.std.specs.List.{AllByRecursion};
ghost use Rattle.osc_queue.specs.Timed.{unit_of};

use osc_queue::Queue;
use osc_queue::laws::an_item_enters_the_queue;
use std::alloc::AllocError;
use std::process::ExitCode;

/// How many items wait.
const COUNT: u32 = 4000;

/// How many of them are taken first.
const FIRST: u32 = 400;

fn main(rt: HostRuntime) -> ExitCode {
    match run(&rt) {
        Ok(()) => ExitCode::from(0),
        Err(_) => ExitCode::from(3),
    }
}

fn run(rt: &HostRuntime) -> Result<(), AllocError> {
    let mut queue = Queue::open(rt.alloc(), COUNT)?;
    fill(&mut queue);
    take_first(&mut queue);
    take_others(&mut queue);
    Ok(())
}

/// Enters items of 16 bytes in a mixed order of their moments.
#[inline(never)]
fn fill(queue: &mut Queue<[u64; 2]>)
    requires empty { queue.old.items ≡ [] }
    requires room { 4000 ≤ queue.old.limit }
{
    for unit in 0..COUNT {
        enter_one(queue, u64::from(unit));
    }
}

fn enter_one(queue: &mut Queue<[u64; 2]>, unit: u64)
    requires numbered { AllByRecursion (λ item. unit_of item < unit) queue.old.items }
    requires room { length queue.old.items < queue.old.limit }
    requires small { unit < 4000 }
    ensures numbered { AllByRecursion (λ item. unit_of item < unit + 1) queue.new.items }
    ensures length { length queue.new.items ≡ length queue.old.items + 1 }
    ensures limit { queue.new.limit ≡ queue.old.limit }
{
    an_item_enters_the_queue::<[u64; 2]>();
    queue.enter(unit * 7919 % 4000, unit, [unit, 0]);
}

/// Takes some while most of them wait.
#[inline(never)]
fn take_first(queue: &mut Queue<[u64; 2]>) {
    for _taking in 0..FIRST {
        let _taken = queue.take_due(u64::MAX);
    }
}

/// Takes the others.
#[inline(never)]
fn take_others(queue: &mut Queue<[u64; 2]>) {
    for _taking in FIRST..COUNT {
        let _taken = queue.take_due(u64::MAX);
    }
}
END
echo 'mod Numbered' > "$loop/proofs/Lib.antt"
cat > "$loop/proofs/Numbered.antt" <<'END'
-- Items whose units are numbered one after another.
use Rattle.std.proofs.Common.{◌≢◌, ℕ, ◌+◌, ◌<◌, List, [], ◌∷◌, arith}
use Rattle.std.specs.List.{AllByRecursion}
use Rattle.osc_queue.specs.Timed.{Item, unit_of, IsNewUnit}

module _ {T : Type 0} where
  pub next_is_new : (next : ℕ) (items : List (Item T)) → AllByRecursion (λ (item : Item T). unit_of item < next) items → IsNewUnit next items
  next_is_new next [] below = tt
  next_is_new next (item ∷ items) below = (differs (unit_of item) below.0, next_is_new next items below.1) where
    differs : (n : ℕ) → n < next → n ≢ next
    differs n low same = omega arith

  pub numbered_later : (next : ℕ) (items : List (Item T)) → AllByRecursion (λ (item : Item T). unit_of item < next) items
      → AllByRecursion (λ (item : Item T). unit_of item < next + 1) items
  numbered_later next [] below = tt
  numbered_later next (item ∷ items) below = (later (unit_of item) below.0, numbered_later next items below.1) where
    later : (n : ℕ) → n < next → n < next + 1
    later n low = omega arith
END
cat > "$loop/proofs/enter_one/Answers.antt" <<'END'
use Rattle.std.proofs.Common.{ℕ, List, ◌+◌, ◌<◌, length, sym, subst, arith}
use Rattle.std.specs.List.{AllByRecursion}
use Rattle.std.proofs.lemmas.List.Sorted.{length_permutation}
use Rattle.osc_queue.specs.Timed.{Item, unit_of}
use Rattle.osc_queue.proofs.Orders.{all_entered}
use Rattle.queue_loop.proofs.Numbered.{next_is_new, numbered_later}
use Rattle.queue_loop.proofs.enter_one.Goals as goal

pub enter-requires-clause-new : goal.enter-requires-clause-new
enter-requires-clause-new c = next_is_new c.args.unit c.args.queue.now.items c.requires.numbered

pub returns-clause-numbered : goal.returns-clause-numbered
returns-clause-numbered c =
    subst (AllByRecursion (λ (item : Item (List ℕ)). unit_of item < c.args.unit + 1)) (sym c.enter.ensures.items)
    (all_entered (λ (item : Item (List ℕ)). unit_of item < c.args.unit + 1) _ c.args.queue.now.items (omega arith)
    (numbered_later c.args.unit c.args.queue.now.items c.requires.numbered))
END
cat > "$loop/proofs/fill/Invariants.antt" <<'END'
use Rattle.std.proofs.Common.{◌≡◌, ◌≤◌, ◌<◌, length}
use Rattle.std.specs.List.{AllByRecursion}
use Rattle.osc_queue.specs.Timed.{unit_of}
use Rattle.queue_loop.proofs.fill.Given as goal

abbrev pub invariant-loop-unit : goal.invariant-loop-unit
invariant-loop-unit l =
    AllByRecursion (λ item. unit_of item < l.unit) l.queue.items × (length l.queue.items ≡ l.unit) × (4000 ≤ l.queue.limit)
END

(cd "$loop" && rt run < /dev/null > "$work/log" 2>&1) || { cat "$work/log" >&2; exit 1; }

# The instructions of one function of the loop, over so many takings.
per_taking() { # FUNCTION COUNT
    all=$(valgrind --tool=callgrind --callgrind-out-file=/dev/null --toggle-collect="*$1*" "$loop/out/queue_loop" \
        2>&1 < /dev/null | sed -n 's/.*Collected : //p')
    echo $((all / $2))
}

echo "Instructions for a taking, of 4,000 items in a mixed order:"
echo
echo "| the first 400 | the others |"
echo "|---|---|"
echo "| $(per_taking take_first 400) | $(per_taking take_others 3600) |"
