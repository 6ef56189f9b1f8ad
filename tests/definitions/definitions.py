#!/usr/bin/env python3
"""Compares the definitions with the reference implementation, call by call.

The reference implementation prints cases on random and damaged input: what a call is lent, what it answers and leaves. For each case a statement is
written down that the definition leaves the same answer, figure, batch length, strip, newest positions, copies, block and batch buffer, or of the call usage that
it tells the same numbers, and the prover computes it.

usage: definitions.py COUNT [SEED]      (COUNT cases; one in five is of a call on several homes, one in ten of usage)

G is drawn from 4 to 7. Without a seed each run draws a new one; it is printed first, so that a run can be repeated.
"""
# Clauses: [S-5, S-11, S-12, S-13, S-14, S-17, S-18, S-19, S-22, S-28, S-29, S-31, S-36]
import collections
import json
import pathlib
import random
import subprocess
import sys
import tempfile

ROOT = pathlib.Path(__file__).resolve().parents[2]
VECTORS = ROOT / "rust/target/release/vectors"

HEAD = """-- Written by tests/definitions/definitions.py.
use mathlib.Core.Path.{◌≡◌, refl}
use mathlib.Core.Bool.{Bool, true, ◌&&◌}
use mathlib.Core.List.{List, [], ◌∷◌, ◌++◌}
use Rattle.std.specs.Prelude.{ℕ, eqb, replicate}
use Rattle.model.specs.Bytes.{same}
use Rattle.model.specs.Effects.{Given}
use Rattle.model.specs.Calls.{Outcome, format_call, open_call, begin_call, reserve_call, abort_call, store_call, commit_call, flush_call, confirm_call, settle_call, begin_round_call, step_round_call, trim_call, read_call}
use Rattle.acts.specs.Many.{SEVERAL}
use Rattle.model.specs.declared.Usage.{Usage}
use Rattle.abstract_store.specs.Usage.{USAGES}
use Rattle.model.proofs.examples.Computing.{all-definitions}

data Run : Type 0 where
  r : ℕ → ℕ → Run

spread : List Run → List ℕ
spread [] = []
spread (r b n ∷ rs) = replicate n b ++ spread rs

agrees : Outcome → ℕ → ℕ → ℕ → List Run → List Run → List Run → List Run → List Run → List Run → Bool
agrees o c f n s p l a b t = eqb o.code c && (eqb o.figure f && (eqb o.size n && (same o.state (spread s) && (same o.newest (spread p) && (same o.log (spread l) && (same o.area (spread a) && (same o.block (spread b) && same o.batch (spread t))))))))

tells : Usage → ℕ → ℕ → ℕ → ℕ → ℕ → ℕ → ℕ → Bool
tells u c l d f p h w = eqb u.code c && (eqb u.live l && (eqb u.dead d && (eqb u.free f && (eqb u.promised p && (eqb u.holder h && eqb u.first w)))))

gives : List Run → List Run → List Run → List Run → List Run → List Run → ℕ → ℕ → Given
gives s p l a b t w h = record { state = spread s; newest = spread p; log = spread l; area = spread a; block = spread b; batch = spread t; writer = w; home = h }
"""


# The crates that define the calls.
CRATES = ("abstract_store", "acts", "model")

# The definitions of calls on several homes, unfolded for their cases.
SEVERAL = """blocks_lent lent_on and_then stored_first transact_effect blocks_read fetch_effect blocks_right homes_known all_of may_store_all may_read_all
room_for_all ask_homes fetch_answer revise_answer transact_answer fetch_call revise_call transact_call""".split()

# Those of the call usage.
USAGES = "entries_in committed_entries open_entries no_holder holds_lower holder_of usage_of usage_refused usage_if usage_call".split()


def runs(pairs):
    return "(" + "".join(f"r {byte} {count} ∷ " for byte, count in pairs) + "[])"


def told(number, case):
    lent = " ".join(runs(case[k]) for k in ("state", "newest", "log", "data", "block", "batch"))
    numbers = " ".join(str(n) for n in [case["code"]] + case["told"])
    return f"\ncase{number} : tells (usage_call (gives {lent} 0 0)) {numbers} ≡ true\nunfolding all-definitions spread tells gives {' '.join(USAGES)}\ncase{number} = refl\n"


def statement(number, case):
    if case["call"] == "usage":
        return told(number, case)
    lent = " ".join(runs(case[k]) for k in ("state", "newest", "log", "data", "block", "batch"))
    left = " ".join(runs(case[k]) for k in ("state2", "newest2", "log2", "data2", "block2", "batch2"))
    name = case["call"]
    call = f"{name}_call (gives {lent} {case['writer']} {case['home']})"
    if case["call"] in ("reserve", "step_round"):
        call = f"{name}_call (gives {lent} {case['writer']} 0) {case['home']}"
    claim = f"agrees ({call}) {case['code']} {case['figure']} {case['len']} {left} ≡ true"
    more = " ".join([""] + SEVERAL) if case["call"] in ("fetch", "revise", "transact") else ""
    return f"\ncase{number} : {claim}\nunfolding all-definitions spread agrees gives{more}\ncase{number} = refl\n"


def checked(folder, text):
    """What the prover says of a crate with these statements, over the crates that define the calls, as they are built."""
    for part in ("src", "proofs"):
        (folder / "cases" / part).mkdir(parents=True)
    (folder / "cases/src/lib.rt").write_text("// cases\n#![tactic(auto)]\n")
    (folder / "cases/proofs/Lib.antt").write_text("pub mod Cases\n")
    (folder / "cases/proofs/Cases.antt").write_text(text)
    subprocess.run([ROOT / "scripts/built.sh", *CRATES], check=True)
    return subprocess.run([ROOT / "scripts/over_proved.sh", "check", folder / "cases", "cases", " ".join(CRATES)], capture_output=True, text=True)


def main():
    count = sys.argv[1]
    seed = sys.argv[2] if len(sys.argv) > 2 else str(random.SystemRandom().randrange(1, 2**32))
    print(f"definitions: seed {seed}", flush=True)
    several, usages = int(count) // 5, int(count) // 10
    words = [VECTORS, "--seed", seed, "--count", str(int(count) - several - usages), "--several", str(several), "--usages", str(usages)]
    printed = subprocess.run(words, capture_output=True, text=True, check=True).stdout
    cases = [json.loads(line) for line in printed.splitlines()]
    head = HEAD.replace("SEVERAL", ", ".join(SEVERAL)).replace("USAGES", ", ".join(USAGES))
    text = head + "".join(statement(n, case) for n, case in enumerate(cases))
    with tempfile.TemporaryDirectory() as folder:
        told = checked(pathlib.Path(folder), text)
    answers = collections.Counter(f"{case['call']} {case['code']}" for case in cases)
    if told.returncode != 0:
        print(told.stdout[-3000:], told.stderr[-3000:], sep="\n")
        sys.exit(f"definitions: some of {len(cases)} cases differ from the reference implementation (seed {seed})")
    groups = collections.Counter(case["g"] for case in cases if "g" in case)
    sizes = ", ".join(f"{groups[g]} with G {g}" for g in sorted(groups) if 4 <= g <= 7)
    print(f"definitions: {len(cases)} cases as the reference implementation has them; {len(answers)} pairs of call and answer; {sizes}")


main()
