"""The answers of `take` of a message that holds itself and has many members: each is a step of a list, on which the lemmas below go by recursion."""
from names import snake
from oneof import OneOf

# Of more members the answers go by this list. Of fewer they pass over each member, which is shorter.
MOST_PASSED = 10

HEAD = """use Rattle.std.proofs.Common.{◌≡◌, ◌==◌, Bool, false, true, ℕ, List, [], Option, ap, refl, subst, sym, ◌∙◌}
use Rattle.buffa_fields.specs.OneOfParts.{OneOf}
use Rattle.buffa_fields.specs.Schema.{Choice, IsFieldKept, Passed, Schema, Shape, Took}
use Rattle.buffa_fields.specs.TaggedField.{TaggedField}
use Rattle.buffa_fields.specs.Terms.{AsksAsSaid, BudgetLeft, FieldData, RefusesAsSaid, TakesAsSaid, TellsWrongType, check_wire}
use Rattle.buffa_fields.specs.UnknownsOfMembers.{TookWithUnknowns, Unknowns}
use Rattle.buffa_recursive.specs.Fixpoint.{semantics}
use Rattle.buffa_recursive.specs.InnerMessages.{Semantics, shape_by_meaning}
use Rattle.buffa_recursive.specs.MapKeys.{Keys}
use Rattle.buffa_recursive.specs.MemberKinds.{list_kind, map_kind, one_kind}
use Rattle.buffa_recursive.specs.MemberList.{MemberList, keeps_unknown, list_inside, map_inside, member, member_one_of, member_with_unknowns, one_inside, recursive_message, skips_unknown}
use Rattle.buffa_recursive.specs.MessageTree.{MessageTree, Rest, TreeList, head_many, head_one, rest_of, tail_inner}
use Rattle.buffa_recursive.specs.OneOfMeaning.{TookByMeaning}
use Rattle.buffa_recursive.specs.RecursiveSchema.{RecursiveSchema}"""

LEMMAS = """-- types that no crate hands on under a name
abbrev codomain : {A B : Type 0} → (A → B) → Type 0
codomain {B = B} f = B

abbrev Answer : Type 0
Answer = codomain (λ (f : TaggedField). check_wire f.number f.wire_type f.wire_type)

-- What is passed to the call of a field, its answer, and what it left.
record Call : Type 0 where
  depth : ℕ
  wire : codomain (λ (f : TaggedField). f.wire_type)
  bytes : List ℕ
  budget : BudgetLeft
  answer : Answer
  left : BudgetLeft
  rest : List ℕ

abbrev TookBy : {P A : Type 0} → Call → ℕ → Shape P A → P → P → Type 0
TookBy t n s a b = Took s t.depth a n t.wire t.bytes t.budget t.answer b t.left t.rest

abbrev TookCase : {O X : Type 0} → Call → ℕ → OneOf O X → Option X → Option X → Type 0
TookCase t n e a b = TookByMeaning e t.depth a n t.wire t.bytes t.budget t.answer b t.left t.rest

abbrev TakenBy : {M Y : Type 0} → Call → ℕ → Schema M Y → M → M → Type 0
TakenBy t n l old new = l.Taken t.depth old n t.wire t.bytes t.budget t.answer new t.left t.rest

abbrev PutsAside : {P A : Type 0} → Call → ℕ → Shape P A → Unknowns A → P → List (ℕ × FieldData) → P → List (ℕ × FieldData) → Type 0
PutsAside t n s u a x b y = TookWithUnknowns s u t.depth a x n t.wire t.bytes t.budget t.answer b y t.left t.rest

kept_so : {P A : Type 0} (t : Call) (n : ℕ) (s : Shape P A) (u : Unknowns A) (a b : P) {x y v w : List (ℕ × FieldData)} → x ≡ v → y ≡ w → PutsAside t n s u a v b w → PutsAside t n s u a x b y
kept_so t n s u a b {x} {y} {v} {w} p q h = subst (λ z. PutsAside t n s u a z b y) (sym p) (subst (λ z. PutsAside t n s u a v b z) (sym q) h)

-- what a message has behind a member
abbrev others : {W A B : Type 0} → Rest W (A × B) → Rest W B
others x = (x.0.1, x.1)

abbrev behind : {W B : Type 0} → Rest W B → Rest W B
behind x = (x.0, tail_inner x.1)

abbrev behind_map : {W K B : Type 0} → Rest W (List K × B) → Rest W B
behind_map x = (x.0.1, tail_inner x.1)

abbrev own_map : {W K B : Type 0} → Rest W (List K × B) → List K × TreeList W
own_map x = (x.0.0, head_many x.1)

-- The members of a list.
data Members (W : Type 0) : (B : Type 0) → MemberList W B → Type 1 where
  keeps : Members W (List (ℕ × FieldData)) keeps_unknown
  skips : Members W (Unit {0}) skips_unknown
  plain : {P A B : Type 0} {o : MemberList W B} (k : ℕ) (s : Shape P A) → Members W B o → Members W (A × B) (member k s o)
  with_unknowns : {P A B : Type 0} {o : MemberList W B} (k : ℕ) (s : Shape P A) (a : Unknowns A) → Members W B o → Members W (A × B) (member_with_unknowns k s a o)
  one_of : {O X B : Type 0} {o : MemberList W B} (e : OneOf O X) → Members W B o → Members W (Option X × B) (member_one_of e o)
  list : {B : Type 0} {o : MemberList W B} (k : ℕ) → Members W B o → Members W B (list_inside k o)
  one : {B : Type 0} {o : MemberList W B} (k : ℕ) → Members W B o → Members W B (one_inside k o)
  map : {K B : Type 0} {o : MemberList W B} (k : ℕ) (keys : Keys K) → Members W B o → Members W (List K × B) (map_inside k keys o)

-- the records that are kept
kept : {W B : Type 0} {o : MemberList W B} → Members W B o → Rest W B → List (ℕ × FieldData)
kept keeps x = x.0
kept skips x = []
kept (plain k s ms) x = kept ms (others x)
kept (with_unknowns k s a ms) x = kept ms (others x)
kept (one_of e ms) x = kept ms (others x)
kept (list k ms) x = kept ms (behind x)
kept (one k ms) x = kept ms (behind x)
kept (map k keys ms) x = kept ms (behind_map x)

-- all is the same, but for the records that are kept
SameBut : {W B : Type 0} {o : MemberList W B} → Members W B o → Rest W B → Rest W B → Type 0
SameBut keeps x y = Unit {0}
SameBut skips x y = Unit {0}
SameBut (plain k s ms) x y = (y.0.0 ≡ x.0.0) × SameBut ms (others x) (others y)
SameBut (with_unknowns k s a ms) x y = (y.0.0 ≡ x.0.0) × SameBut ms (others x) (others y)
SameBut (one_of e ms) x y = (y.0.0 ≡ x.0.0) × SameBut ms (others x) (others y)
SameBut (list k ms) x y = (head_many y.1 ≡ head_many x.1) × SameBut ms (behind x) (behind y)
SameBut (one k ms) x y = (head_one y.1 ≡ head_one x.1) × SameBut ms (behind x) (behind y)
SameBut (map k keys ms) x y = (own_map y ≡ own_map x) × SameBut ms (behind_map x) (behind_map y)

-- The member of a number took the field, and all else is the same: x is what a message had for these members, y what it has then.
TakenOf : {W B : Type 0} {o : MemberList W B} → Semantics (MessageTree W) → Call → ℕ → Members W B o → Rest W B → Rest W B → Type 0
TakenOf w t n keeps x y = IsFieldKept t.depth x.0 n t.wire t.bytes t.budget t.answer y.0 t.left t.rest
TakenOf w t n skips x y = Passed t.depth n t.wire t.bytes t.budget t.answer t.left t.rest
TakenOf w t n (plain k s ms) x y = Choice (n == k) (TookBy t n (shape_by_meaning s) x.0.0 y.0.0 × (others y ≡ others x)) ((y.0.0 ≡ x.0.0) × TakenOf w t n ms (others x) (others y))
TakenOf w t n (with_unknowns k s a ms) x y =
    Choice (n == k) (PutsAside t n (shape_by_meaning s) a x.0.0 (kept ms (others x)) y.0.0 (kept ms (others y)) × SameBut ms (others x) (others y))
    ((y.0.0 ≡ x.0.0) × TakenOf w t n ms (others x) (others y))
TakenOf w t n (one_of e ms) x y =
    Choice (e.all.cases.mine n) (TookCase t n e x.0.0 y.0.0 × (others y ≡ others x)) ((y.0.0 ≡ x.0.0) × TakenOf w t n ms (others x) (others y))
TakenOf w t n (list k ms) x y =
    Choice (n == k) (TookBy t n (list_kind.shape w) (head_many x.1) (head_many y.1) × (behind y ≡ behind x)) ((head_many y.1 ≡ head_many x.1) × TakenOf w t n ms (behind x) (behind y))
TakenOf w t n (one k ms) x y =
    Choice (n == k) (TookBy t n (one_kind.shape w) (head_one x.1) (head_one y.1) × (behind y ≡ behind x)) ((head_one y.1 ≡ head_one x.1) × TakenOf w t n ms (behind x) (behind y))
TakenOf w t n (map k keys ms) x y =
    Choice (n == k) (TookBy t n ((map_kind keys).shape w) (own_map x) (own_map y) × (behind_map y ≡ behind_map x))
    ((own_map y ≡ own_map x) × TakenOf w t n ms (behind_map x) (behind_map y))

either : {A B C D : Type 0} (b : Bool) → (A → C) → (B → D) → Choice b A B → Choice b C D
either true f g h = f h
either false f g h = g h

module _ {W M : Type 0} (w : Semantics (MessageTree W)) (t : Call) (old new : M) where
  kept_is : {B : Type 0} {o : MemberList W B} (ms : Members W B o) (g : M → Rest W B) (m : M) → (let l = o.schema g w in l.kept (l.meaning m)) ≡ kept ms (g m)
  unfolding kept
  kept_is keeps g m = refl
  kept_is skips g m = refl
  kept_is (plain k s ms) g m = kept_is ms (λ m. others (g m)) m
  kept_is (with_unknowns k s a ms) g m = kept_is ms (λ m. others (g m)) m
  kept_is (one_of e ms) g m = kept_is ms (λ m. others (g m)) m
  kept_is (list k ms) g m = kept_is ms (λ m. behind (g m)) m
  kept_is (one k ms) g m = kept_is ms (λ m. behind (g m)) m
  kept_is (map k keys ms) g m = kept_is ms (λ m. behind_map (g m)) m

  same : {B : Type 0} {o : MemberList W B} (ms : Members W B o) (g : M → Rest W B) → g new ≡ g old → (o.schema g w).Same old new
  same keeps g is = ap (λ z. z.0) is
  same skips g is = tt
  same (plain k s ms) g is = (ap (λ z. z.0.0) is, same ms (λ m. others (g m)) (ap others is))
  same (with_unknowns k s a ms) g is = (ap (λ z. z.0.0) is, same ms (λ m. others (g m)) (ap others is))
  same (one_of e ms) g is = (ap (λ z. z.0.0) is, same ms (λ m. others (g m)) (ap others is))
  same (list k ms) g is = (ap (λ z. head_many z.1) is, same ms (λ m. behind (g m)) (ap behind is))
  same (one k ms) g is = (ap (λ z. head_one z.1) is, same ms (λ m. behind (g m)) (ap behind is))
  same (map k keys ms) g is = (ap own_map is, same ms (λ m. behind_map (g m)) (ap behind_map is))

  same_but : {B : Type 0} {o : MemberList W B} (ms : Members W B o) (g : M → Rest W B) → SameBut ms (g old) (g new) → (o.schema g w).SameBut old new
  unfolding SameBut
  same_but keeps g is = tt
  same_but skips g is = tt
  same_but (plain k s ms) g is = (is.0, same_but ms (λ m. others (g m)) is.1)
  same_but (with_unknowns k s a ms) g is = (is.0, same_but ms (λ m. others (g m)) is.1)
  same_but (one_of e ms) g is = (is.0, same_but ms (λ m. others (g m)) is.1)
  same_but (list k ms) g is = (is.0, same_but ms (λ m. behind (g m)) is.1)
  same_but (one k ms) g is = (is.0, same_but ms (λ m. behind (g m)) is.1)
  same_but (map k keys ms) g is = (is.0, same_but ms (λ m. behind_map (g m)) is.1)

  taken_of : {B : Type 0} {o : MemberList W B} (n : ℕ) (ms : Members W B o) (g : M → Rest W B) → TakenOf w t n ms (g old) (g new) → TakenBy t n (o.schema g w) old new
  unfolding TakenOf
  taken_of n keeps g h = h
  taken_of n skips g h = h
  taken_of n (plain k s ms) g h = either (n == k) (λ p. (p.0, same ms (λ m. others (g m)) p.1)) (λ p. (p.0, taken_of n ms (λ m. others (g m)) p.1)) h
  taken_of n (with_unknowns k s a ms) g h = either (n == k) (λ p. (
      kept_so t n (shape_by_meaning s) a (g old).0.0 (g new).0.0 (kept_is ms (λ m. others (g m)) old) (kept_is ms (λ m. others (g m)) new) p.0,
      same_but ms (λ m. others (g m)) p.1)) (λ p. (p.0, taken_of n ms (λ m. others (g m)) p.1)) h
  taken_of n (one_of e ms) g h = either (e.all.cases.mine n) (λ p. (p.0, same ms (λ m. others (g m)) p.1)) (λ p. (p.0, taken_of n ms (λ m. others (g m)) p.1)) h
  taken_of n (list k ms) g h = either (n == k) (λ p. (p.0, same ms (λ m. behind (g m)) p.1)) (λ p. (p.0, taken_of n ms (λ m. behind (g m)) p.1)) h
  taken_of n (one k ms) g h = either (n == k) (λ p. (p.0, same ms (λ m. behind (g m)) p.1)) (λ p. (p.0, taken_of n ms (λ m. behind (g m)) p.1)) h
  taken_of n (map k keys ms) g h = either (n == k) (λ p. (p.0, same ms (λ m. behind_map (g m)) p.1)) (λ p. (p.0, taken_of n ms (λ m. behind_map (g m)) p.1)) h

-- What a message is, member by member.
record Described {W : Type 0} (s : RecursiveSchema (MessageTree W)) : Type 1 where
  all : MemberList W W
  members : Members W W all
  is : s ≡ recursive_message all

taken : {W : Type 0} {s : RecursiveSchema (MessageTree W)} (e : Described s) (w : Semantics (MessageTree W)) (t : Call) {v old : MessageTree W} (new : MessageTree W) {n : ℕ} (k : ℕ) → v ≡ old → n ≡ k →
    TakenOf w t k e.members (rest_of v) (rest_of new) → TakenBy t n (s.schema w) old new
taken {s = s} e w t {v} {old} new {n} k is at h =
    subst (λ z. TakenBy t n (s.schema w) z new) is
    (subst (λ z. TakenBy t n (z.schema w) v new) (sym e.is)
    (subst (λ z. TakenBy t z ((recursive_message e.all).schema w) v new) (sym at) (taken_of w t v new k e.members rest_of h)))

took_at : {P A : Type 0} (t : Call) (s : Shape P A) (a b : P) (n k : ℕ) → n ≡ k → TookBy t n s a b → TookBy t k s a b
took_at t s a b n k at h = subst (λ z. TookBy t z s a b) at h

meant_at : {P A : Type 0} (t : Call) (s : Shape P A) (a b : P) (n k : ℕ) → n ≡ k → TookBy t n s a b → TookBy t k (shape_by_meaning s) (s.meaning a) (s.meaning b)
unfolding AsksAsSaid RefusesAsSaid TakesAsSaid TellsWrongType
meant_at t s a b n k at h = subst (λ z. TookBy t z (shape_by_meaning s) (s.meaning a) (s.meaning b)) at h

case_at : {O X : Type 0} (t : Call) (e : OneOf O X) (a b : Option X) (n k : ℕ) → n ≡ k → TookCase t n e a b → TookCase t k e a b
case_at t e a b n k at h = subst (λ z. TookCase t z e a b) at h

unknowns_at : {P A : Type 0} (t : Call) (s : Shape P A) (u : Unknowns A) (a b : P) (x y : List (ℕ × FieldData)) (n k : ℕ) → n ≡ k → PutsAside t n s u a x b y →
    PutsAside t k (shape_by_meaning s) u (s.meaning a) x (s.meaning b) y
unfolding TookWithUnknowns
unknowns_at t s u a b x y n k at h = subst (λ z. PutsAside t z (shape_by_meaning s) u (s.meaning a) x (s.meaning b) y) at h
"""


def named(one):
    """What the module of a oneof's cases is called in the answers."""
    return f"cases_{one.number}"


def constructor(member):
    """The step of a member, but for those behind it. Its shape is found where the list is compared with the message; the cases of a oneof aren't."""
    if isinstance(member, OneOf):
        return f"one_of {named(member)}.ghosts.cases"
    if member.itself:
        return f"{member.itself} {member.number}{' _' * (member.itself == 'map')}"
    return f"with_unknowns {member.number} _ _" if member.keeps else f"plain {member.number} _"


def members(message):
    """The list."""
    made = "keeps" if message.is_keeping else "skips"
    for member in reversed(message.members):
        made = f"{constructor(member)} {f'({made})' if ' ' in made else made}"
    return made


def took(member, at, took_by, number):
    """That a member took the field of its number, by what the contract of its call says."""
    if isinstance(member, OneOf):
        return f"case_at _ {named(member)}.ghosts.cases _ _ _ {number} is {took_by}"
    if member.keeps:
        return f"unknowns_at _ _ _ _ _ _ _ _ {number} is {took_by}"
    return f"{'took_at' if member.itself else 'meant_at'} _ _ _ _ _ {number} is {took_by}"


def behind(message, at):
    """That what stands behind a member stays; of one that puts aside what it doesn't understand, all but what is kept."""
    if not message.members[at].keeps:
        return "refl"
    left = len(message.members) - at - 1
    return "(refl, " * left + "tt" + ")" * left


def left(message, member, step):
    """What the call of a member left of the message's fields: another value of its own, and of the fields that are kept."""
    passed = "slot" if isinstance(member, OneOf) else member.itself or "part"
    made = f"{member.in_contract} = c.{step}.new.{passed}"
    if not member.keeps:
        return made
    kept = f"c.{step}.new.kept"
    return f"{made}; unknown_fields = {f'record c.self.inside.unknown_fields {{ fields = {kept} }}' if message.rest else kept}"


def take(world, message, goals, arms, took_by):
    """The answers of `take`: of each number, that its member took the field, and that the others stay."""
    contracts = ".".join(it for it in ("Rattle", world.crate, "specs.contracts", world.module) if it)
    own = f"use {contracts}.{snake(message.rust)}.{message.rust}"
    cases = [f"use {contracts}.{snake(it.enum)}.{it.enum}OneOf.TheImpl as {named(it)}" for it in message.oneofs]
    made = [HEAD, f"{own}.{{the_view}}", f"{own}RecursiveType.TheImpl.{{ghosts}}", *cases, goals, "", LEMMAS]
    made += ["described : Described ghosts.schema", f"described = record {{ all = _; members = {members(message)}; is = refl }}"]
    call = "record { depth = _; wire = _; bytes = _; budget = _; answer = _; left = _; rest = _ }"
    for number, at, step in arms:
        name, member = f"returns-in-{number}-clause-taken", message.members[at]
        proof = f"({took(member, at, took_by(member, step), number)}, {behind(message, at)})"
        made += ["", f"pub {name} : goal.{name}", "unfolding TakenOf SameBut kept described" if member.keeps else "unfolding TakenOf described"]
        made += [f"{name} g c =", f"    let is = sym c.field_number.ensures ∙ c.in-{number}.is in"]
        made.append("    let w = semantics ghosts.COST ghosts.schema ghosts.sound in")
        made.append(f"    let new = the_view (record c.self.inside {{ {left(message, member, step)} }}) in")
        made.append(f"    taken described w ({call}) new {number} c.self.view_is is {'(refl, ' * at}{proof}{')' * at}")
    return made
