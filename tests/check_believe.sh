#!/usr/bin/env bash
# tools/believe on a crate of its own: what a call and a theorem rest on, structs of the code and names like ◌if◌ included; status 1 where a definition stands
# under proofs/, or where nothing has the name.
set -eu
cd "$(dirname "$0")/.."
away=$(mktemp -d)
trap 'rm -rf "$away"' EXIT
mkdir -p "$away/tools" "$away/crates/x/specs" "$away/crates/x/proofs" "$away/crates/x/src" "$away/crates/limits/specs"
cp tools/believe tools/statements.py "$away/tools"
cat >"$away/crates/limits/specs/Limits.antt" <<'END'
abbrev pub limit : ℕ
limit = 3
END
cat >"$away/crates/x/specs/S.antt" <<'END'
use Rattle.std.specs.Prelude.{ℕ, ◌≤◌}
use Rattle.limits.specs.Limits.{limit}
use Rattle.x.specs.declared.Pair.{Pair}
use Rattle.x.specs.T as T

module _ (p : Pair) where
  -- what is said
  pub record Small (n : ℕ) : Type 0 where
    -- of n
    pub low : 0 at_most n
    pub high : n ≤ T.most limit

-- one or the other
infix 80 ◌at_most◌
abbrev pub ◌at_most◌ : ℕ → ℕ → Type 0
a at_most b = a ≤ b

-- nobody names it
abbrev pub idle : ℕ
idle = 0
END
cat >"$away/crates/x/specs/T.antt" <<'END'
-- through another name
abbrev pub most : ℕ → ℕ
most n = n
END
cat >"$away/crates/x/src/lib.rt" <<'END'
ghost use Rattle.x.specs.S.{Small};
use other::{
    Apart, Pair,
};
// Two numbers.
pub struct Pair {
    pub a: u8,
}

// Answers.
#[tactic(
    auto, using(good)
)]
pub fn small(
    p: Pair,
) -> u8
    requires at_hand {
        Small p limit
    }
    ensures { Small p result }
{
    p.a
}
END
cat >"$away/crates/x/proofs/P.antt" <<'END'
use Rattle.x.specs.S.{Small}
use Rattle.x.specs.declared.Pair.{Pair}

abbrev pub Tiny : Pair → Type 0
Tiny p = Small p 1

module _ (p : Pair) where
  -- a theorem
  pub good : Small p 1
  good = other

  pub bad : Tiny p
  bad = good
END
fail() { echo "$1" >&2; exit 1; }
names() { "$away/tools/believe" --names "$1" | sed 's/.*: //; s/, /\n/g' | LC_ALL=C sort | tr '\n' ' '; }
[ "$(names small)" = "Pair Small limit most small ◌at_most◌ " ] || fail "small: $(names small)"
[ "$(names good)" = "Pair Small good limit most ◌at_most◌ " ] || fail "good: $(names good)"
"$away/tools/believe" small >"$away/said"
grep -qF "    ensures { Small p result }" "$away/said" || fail "a clause is lost"
"$away/tools/believe" good >"$away/said"
[ "$(grep -c '^-- ====' "$away/said")" = 2 ] || fail "not by sections"
grep -q '^-- a theorem$' "$away/said" || fail "a comment is lost"
grep -qF 'module _ (p : Pair) where' "$away/said" || fail "a parameter is lost"
grep -q 'of the kit: Rattle.std.specs.Prelude.ℕ, Rattle.std.specs.Prelude.◌≤◌' "$away/said" || fail "the kit's names are lost"
"$away/tools/believe" bad >"$away/said" 2>&1 && fail "a definition under proofs/ is let pass"
grep -q '^under proofs/: x/P.Tiny$' "$away/said" || fail "$(tail -n 1 "$away/said")"
"$away/tools/believe" nothing >/dev/null 2>&1 && fail "a name that nothing has is let pass"
echo "tools/believe: a call, a theorem, a definition under proofs/, no name"
