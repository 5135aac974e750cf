"""The walks of crate `row_list`: a row is read, and stored, behind a branch; rows are cleared in a loop."""

from core import Callee, Function, Script, define, dropped, fill, finishes, listed, nest, read_slice, written_slice
from parted import PARTED, Parted, section, spelt
from short import RULES, library

OWN = PARTED | {
    "Prim.Native.Nat": "zero suc",
    "mathlib.Core.Bool": "Bool",
    "mathlib.Core.WellFounded": "InvImage·wf",
    "native.Mathlib.Omega": "arith",
    "native.Mathlib.Nat": "zero-add add-zero lt-suc-self",
    "lib.Dec": "leb leb→le nleb→lt lit<",
    "lib.ListN": "List·getD-eq-default length-set",
    "lib.Seq": "set-out",
    "lib.WfN": "Nat·lt-wfRel",
    "borrow.Author.Tests": "lt-ltb le-ltb",
    "types.Share": "arr-parts",
    "denote.Shadow": "pureI",
    "denote.Memory": "shares pointee",
    "denote.Slice": "sliceTy heres codedHoleys at-slice",
    "denote.Signature": "shrSliceOf",
    "denote.Lend": "Held",
    "denote.Index": "row place-is elem-out elem-back elem-put opens-slice closes-slice looks-slice shuts-slice",
    "denote.Struct.Laws": "as LL",
    "denote.Triple.Walked": "stay-dropped stay-slice goes-dropped goes-slice",
    "Rattle·task.specs.Types": "idle",
    "Rattle·task.specs.declared.Row": "Row",
    "Rattle·task.proofs.Row": "as T",
    "Rattle·task.proofs.Row.Laws": "as T′",
    "Rattle·task.proofs.WorkerId": "as Wk",
    "Rattle·task.proofs.WorkerId.Laws": "as Wk′",
    "Rattle·rows.specs.Rows": "clearedRows",
    "Rattle·rows.proofs.Laws": "cleared-none cleared-next",
    "Rattle·row_list·proofs.proofs.Laws": "R vals worker-val scaled length-cleared row-idle-triple to-row-idle said-row-idle",
    "Rattle·row_list·proofs.proofs.Rules": RULES,
}

LIST = "(κ : Lft) (q : Share) (b o : ℕ) (γ : GName) (ys : List Row) (room : Room R (length ys))"
IS_LIST = "(κs .0) (qs .0) (a .0 .ptr .0) (a .0 .ptr .1) (a .0 .name) (a .0 .now) (are .0 .0 .1)"
WORKER = dropped("Wk.the-row", "LL.vals Wk.the-type Wk′.the-laws", "LL.tells Wk.the-type Wk′.the-laws")
ROW = dropped("R", "vals", "LL.tells T.the-type T′.the-laws")
COUNT = dropped("usize", "uint-vals w64", "uint-tells w64")
IDLE = Callee("task", "Row.idle")
SHOWS = "R (Is R) (shows 𝓤 H A R) vals (LL.tells T.the-type T′.the-laws)"


def typed(row, is_):
    return f"(LL.lawful T.the-type T′.the-laws 𝓤 H A W .typed {row} _ {is_} .0)"


def fits(why):
    return f"(tt, record {{ fits = {why} }})"


def locals_types(kind, names):
    """The types of the locals, by name; the list is lent as `kind`."""
    row = "(pointee (R .written))"
    spelling = {"row": row, "rows": f"(sliceTy (tyRef (named 0) {kind} {row}))", "worker": "(pointee (Wk.the-row .written))", "word": "(tyInt w64)"}
    spelling |= {"bool": "tyBool", "ptr": "tyPtr", "unit": "tyUnit"}
    return [(f"{name}-ty", spelling[name]) for name in names.split()]


class Rows(Function):
    """A function of the list of rows and of values: the argument of each, its machine value, and that this is of its type."""

    library = library("row_list·proofs")

    def __init__(self, name, slice, params, values, types, callees=(), loops=False):
        super().__init__("row_list", name, [slice(0, "R"), *params], callees, loops)
        self.types = types
        self.arguments, self.values, self.typed = zip(("rows ys", "s", "(tt, (tt, (record { fits = room .0 }, tt)))"), *values)

    def own_modules(self):
        return [*super().own_modules(), (f"Rattle·row_list·proofs.proofs.{self.name}.Code.Mir", "as pieces")]

    def begins(self, more):
        """What the file begins with: what is had at exit; the types; the arguments with their machine values; what is to be shown at exit."""
        bound = f"(((κ, tt), (q, tt), tt, {nest(self.arguments)}, {nest([f'{v} ∷ []' for v in self.values])}), tt)"
        triple = "walkOf 𝓤 H A fn.ended stayed (fn.clauses 𝓤 H A mem run)"
        return [
            self.stayed(),
            spelt(self.types),
            self.module(f"{LIST} {more}").rstrip("\n"),
            define("abbrev rows : List Row → RefT (List Row)", "record { ptr = (b, o); name = γ; now = zs }", 2, "rows zs"),
            define("abbrev s : Val", "sliceVal (b, o) (length ys)", 2),
            define(f"abbrev here : {triple} .Ghost", bound, 2),
            define("abbrev Exit : Val → SProp 𝓤", f"{triple} .post here", 2),
        ]

    def enters(self, *lent):
        """The parameters are passed, and what is owned of the list is taken apart."""
        w = Parted([name for name, _ in self.types], "tokens", "owned")
        for i, typed in enumerate(self.typed, 1):
            w.passes(i, typed)
        w.step("pass0 !").split("tokens", "life", "true").split("owned", "list", "values", rule="fsplit")
        return w.split("list", "at", "lent", rule="fsplit").split("lent", *lent, rule="fsplit")

    def walked(self, script):
        entry = "(‵ (flft κ q) ⊛ ‵ ftrue) ∷ ‵ (owns (typesAt (fn.signature .params) (κ, tt)) (here .0 .3) (here .0 .4)) ∷ []"
        return self.walk("(κ, tt) (q, tt) (here .0 .3) (here .0 .4)", entry, listed(self.values), "Exit", script)

    def exits(self, given, left, value, result, owned, written=None):
        """A lemma: what is left, the token of the lifetime and the borrow of a list that is `written`, at these last rows, is what is to be
        shown at exit."""
        silent = ["tt"] * len(self.params[1:])
        s = Script(*(["obs", "bor"] if written else []), "life")
        s.step(finishes("here", f"{value} {result} {nest([written or 'tt', *silent])} {nest(['l' if written else 'tt', *silent])}"))
        s.step("says ! e").step("nothing !", 0, "none").join("life", "none", "tokens").step("frame !", 1).step("nothing !", 0, "had")
        for _ in silent:
            s.step("nothing !", 0, "value").join("value", "had", "had", "fjoin")
        if written:
            same = "(ap (λ (m : ℕ). sliceVal (b, o) m ∷ []) (sym l), subst (Room R) (sym l) room)"
            s.join("obs", "bor", "list", "fjoin").step(f"\npureI ! (at-slice R (rows {written}) (s ∷ [])) (tt, (tt, tt)) {same}", 0, "at")
            s.join("at", "list", "list", "fjoin")
        else:
            s.step("nothing !", 0, "list")
        s.join("list", "had", "had", "fjoin").step("frame !", 1)
        names, types = zip(*given)
        return define(
            f"exits : {' → '.join(types)} → ent 𝓤 (⋆ 𝓤 H A ({left})) (Exit {value})",
            f"qed W ({left}) ∵\n{s.text}{owned} $ done !",
            2,
            f"exits {' '.join(names)}",
        )


# ---- pieces of the scripts


def measures(w, i, count, test):
    """i = worker.0 as usize; count = rows.len(); test = count <= i"""
    w.assign(f"(un ! {w.read(2, 0)} (record {{ fits = wide }}))", i, fits("wide"))
    w.copy(w.read(1, 1), count, fits("room .0"))
    return w.assign(f"(bin ! {w.read(count)} {w.read(i)} tt)", test, "(tt, tt)")


def finds(w, i, offset, pointer, within):
    """offset = i * 24; pointer = rows.0 + offset"""
    fit = f"scaled (length ys) i room {within}"
    w.assign(f"(bin ! {w.read(i)} (lit ! tt) (record {{ fits = {fit} }}))", offset, fits(fit))
    w.assign(f"(bin ! {w.read(1, 0)} {w.read(offset)} tt)", pointer, "(tt, tt)")
    return w.rewrite(pointer, "ℕ", "vptr b z", "(sym (place-is 24 o i))")


def calls_idle(w, to):
    """local `to` = Row::idle(): the row r, at the machine value v."""
    for part in "abc":
        w.step("nothing !", 0, part)
    to_idle = "(to-row-idle 𝓤 H A mem run)"
    w.join("c", "b", "b").join("b", "a", "a").step(f"use1 W (raw (row-idle-triple 𝓤 H A mem run .pre {to_idle})) (id⊢ 𝓤 _)", 1, "pre")
    w.call("row-idle", to_idle, [], "v", ("Row", "R"), "r", "‵ ftrue", "tt", "tt")
    w.step("use1 W (raw (fact 𝓤 (r ≡ idle))) (said-row-idle 𝓤 H A mem run r)").bind("heard ! (r ≡ idle)", "er", 1)
    w.split("tokens∗answer", "none", "row").drop("none").peek("row", "R", "r", "(v ∷ [])", "ir").drop("row")
    return w.lands(to, typed("r", "ir"))


def opens(w):
    """The borrow of the list is opened."""
    return w.move("obs", "bor", "life").step("opens-slice ! tt R ys b o", 3, "rows", "open", "obs", "auth")


def closes(w, rows, same_length):
    """It is closed at these rows."""
    return w.step(f"closes-slice ! tt R ys {rows} {same_length} b o", 4, "obs", "bor", "life")


def stores(w, pointer, source, rows, row, is_, value, within):
    """*pointer = source, of the opened list `rows`"""
    w.bind(f"elem-out ! {SHOWS} fullShare {rows} i {row} b o {within}", "_", 1, "cell", "was", "others")
    w.store_through(pointer, "cell", w.read(source), typed(row, is_)).drop("was")
    w.step(f"owned ! R (Is R) (LL.makes T.the-type T′.the-plain 𝓤 H A) {row} {value} {is_}", 0, "row").move("cell", "row", "others")
    return w.step(f"elem-put ! R fullShare {rows} i {row} {value} b o {within}", 3, "rows")


def answers_nothing(w):
    return w.copy("(unit-lit !)", 0, "(tt, tt)")


def borrow(rows):
    """The borrow of the list, at these rows, with the token of its lifetime."""
    return f"‵ (fobs γ (codedHoleys R .code (heres R {rows}))) ∷ ‵ (fbor κ (Held R (length {rows}) b o γ)) ∷ ‵ (flft κ q)"


# ---- a row is read, or stored, where there is one

WORKER_FITS = "(i : ℕ) (i-fits : i < 2 ^ 32)"
WIDE = define("wide : i < 2 ^ 64", "omega (arith, i-fits)", 2)
PASSED_WORKER = "record { 0 = i }", "worker-val i", "(tt, (record { fits = i-fits }, tt))"
IS_WORKER = "(a .1 .0 .0) (LL.owed Wk.the-type Wk′.the-laws (a .1 .0) _ (are .1 .0) .0 .1)"
OUT, WITHIN = "(leb→le (length ys) i out)", "(nleb→lt (length ys) i within)"


def branches(f, w, before, test, values, past, found):
    """The section of the branch after `measures`: what stands before it, and its arms, functions of the script so far."""
    held, failed = past(w.resumed()), found(w.resumed().step("skips !").goes_on(f))
    parts = [
        "      -- what stands before the branch",
        define("abbrev Before : List (Item 𝓤)", f"{before} ∷\n{w.standing(values)}\n[]", 6),
        define(
            f"chosen : Sq W Before (runs {f.C} {f.L} En pieces.s-{w.cut_at} (anyQ Then))",
            f"branches ! {w.read(test)}\n(λ out. {held})\n(λ within. {failed})",
            6,
        ),
    ]
    return section(f, w, "", parts)


def row_at_past(w):
    calls_idle(w, 0).leave("returns-within ! Exit refl")
    return w.end(f"exits r v (er ∙ sym (List·getD-eq-default ys idle {OUT})) ir", "life")


def row_at_found(w):
    found = "(getD ys i idle)"
    finds(w, 3, 4, 6, WITHIN).move("shared", "life")
    w.bind(f"looks-slice ! tt {SHOWS} (LL.copy T.the-type T′.the-copy 𝓤 H A W) ys b o", "q′", 2, "rows", "open", "shared")
    w.bind(f"elem-out ! {SHOWS} q′ ys i idle b o {WITHIN}", "is", 1, "cell", "row", "others")
    w.load_through(6, "cell", 7, typed(found, "is")).copy(w.read(7), 0, typed(found, "is"))
    w.step(f"elem-back ! R q′ ys i idle (vals {found}) b o {WITHIN}", 3, "rows").step("shuts-slice ! tt R q′ ys b o", 2, "life")
    return w.leave().end(f"exits {found} (LL.val T.the-type T′.the-laws {found}) refl is", "life")


def row_at():
    f = Rows("row_at", read_slice, [WORKER], [PASSED_WORKER], locals_types("imm", "row rows worker word word bool ptr row"), [IDLE])
    w = f.enters("last", "shared")
    w.keep("shared", "life", *w.labels)
    first, w = measures(w, 3, 4, 5).cut("chosen")
    values = {1: "s", 2: "(worker-val i)", 3: "(vint w64 i)", 4: "(vint w64 (length ys))", 5: "(vbool (leb (length ys) i))"}
    before = "‵ (fshr-bor κ (λ t. arr-parts (shares R) (length ys) .part t ys b o)) ∷ ‵ (flft κ q)"
    given = [("r v", "(r : Row) (v : Val)"), ("e", "r ≡ getD ys i idle"), ("is", "Is R r (v ∷ [])")]
    owned = "owned ! R (Is R) (LL.makes T.the-type T′.the-plain 𝓤 H A) r (v ∷ []) is"
    parts = [
        *f.begins(WORKER_FITS),
        WIDE,
        "  -- with the result r, at the machine value v",
        f.exits(given, "‵ (flft κ q) ∷ []", "v", "r", owned),
        f.callees_module() + branches(f, w, before, 5, values, row_at_past, row_at_found),
        f.walked(first),
        f.handed_over(1, f"{IS_LIST} {IS_WORKER}", asks=False),
    ]
    f.write("a walk of `row_at`. Past the end `Row::idle` is called; within, the borrow is looked into, and the row read.", parts, OWN)


def store_row_past(w):
    answers_nothing(w).leave("returns-within ! Exit refl")
    return w.end(f"exits ys (sym (set-out ys i r {OUT})) refl", "obs", "bor", "life")


def store_row_found(w):
    opens(finds(w, 4, 5, 7, WITHIN))
    stores(w, 7, 3, "ys", "r", "is", "(vals r)", WITHIN)
    answers_nothing(closes(w, "(set ys i r)", "(length-set ys i r)")).leave()
    return w.end("exits (set ys i r) refl (length-set ys i r)", "obs", "bor", "life")


def written_exits(f, law):
    """What is left at exit of a list that is written, with its last rows zs."""
    given = [("zs", "(zs : List Row)"), ("e", f"zs ≡ {law}"), ("l", "length zs ≡ length ys")]
    return f.exits(given, f"{borrow('zs')} ∷ []", "vunit", "tt", "feqI ! (List Val) (vunit ∷ []) (vunit ∷ []) refl", "zs")


def store_row():
    value = "LL.val T.the-type T′.the-laws r"
    passed = [PASSED_WORKER, ("r", value, typed("r", "is"))]
    f = Rows("store_row", written_slice, [WORKER, ROW], passed, locals_types("mut", "unit rows worker row word word bool ptr"))
    w = f.enters("obs", "bor")
    w.keep("obs", "bor", "life", *w.labels)
    first, w = measures(w, 4, 5, 6).cut("chosen")
    values = {1: "s", 2: "(worker-val i)", 3: f"({value})", 4: "(vint w64 i)", 5: "(vint w64 (length ys))", 6: "(vbool (leb (length ys) i))"}
    parts = [
        *f.begins(f"{WORKER_FITS} (r : Row) (is : Is R r (vals r))"),
        WIDE,
        "  -- with the last rows zs",
        written_exits(f, "set ys i r"),
        f.callees_module() + branches(f, w, borrow("ys"), 6, values, store_row_past, store_row_found),
        f.walked(first),
        f.handed_over(1, f"{IS_LIST} {IS_WORKER} (a .1 .1 .0) (are .1 .1 .0)", asks=False),
    ]
    f.write("a walk of `store_row`. Past the end nothing is done; within, the borrow is opened, the row written, the borrow closed.", parts, OWN)


# ---- rows are cleared

# Of a turn with i rows cleared and t left, or suc t.
TURNS = [
    ("below", "(i t : ℕ) → i + suc t ≡ n → i < n", "omega (arith, e)"),
    ("within", "(i t : ℕ) → i + suc t ≡ n → i < length ys", "omega (arith, e, ok)"),
    ("next-fits", "(i t : ℕ) → i + suc t ≡ n → i + 1 < 2 ^ 64", "omega (arith, e, n-fits)"),
    ("onward", "(i t : ℕ) → i + suc t ≡ n → (i + 1) + t ≡ n", "omega (arith, e)"),
    ("same-length", "(i t : ℕ) → i + t ≡ n → length (clearedRows i ys) ≡ length ys", "length-cleared i ys (omega (arith, e, ok))"),
    (
        "inside",
        "(i t : ℕ) → i + suc t ≡ n → i < length (clearedRows i ys)",
        "subst (λ (m : ℕ). i < m) (sym (same-length i (suc t) e)) (within i t e)",
    ),
]


def guarded(cleared, count):
    """The opened rows, so many of them cleared, with what is known of the count; and the same without."""
    cells = f"row R fullShare (clearedRows {cleared} ys) b o"
    return f"given ({count} ≡ n) (‵ ({cells}))", f"(sem 𝓤 H A ({cells}))"


def guards(w, cleared, count, why):
    item, cells = guarded(cleared, count)
    return w.step(f"use1 W ({item}) (guardI 𝓤 ({count} ≡ n) {cells} {why})")


def rewrites_rows(w, by):
    return w.step(f"rewrite ! {w.at('rows')} (λ (zs : List Row). ‵ (row R fullShare zs b o)) {by} refl")


def tests(w, law):
    """5 = i < n, which is known"""
    w.bind("learn !", "e", 1, "rows").assign(f"(bin ! {w.read(4)} {w.read(2)} tt)", 5, "(tt, tt)")
    return w.rewrite(5, "Bool", "vbool z", law)


def last_turn(f, w):
    tests(w, "(le-ltb i n (omega (arith, e)))").step(f"leaves-loop ! {w.read(5)}")
    answers_nothing(closes(w.goes_on(f), "(clearedRows i ys)", "(same-length i 0 e)")).leave()
    law = "(ap (λ (m : ℕ). clearedRows m ys) (sym (add-zero i) ∙ e))"
    return w.end(f"exits (clearedRows i ys) {law} (same-length i 0 e)", "obs", "bor", "life")


def one_turn(w):
    tests(w, "(lt-ltb i n (below i t e))").step(f"stays ! {w.read(5)}")
    finds(w, 4, 6, 7, "(within i t e)")
    stores(w, 7, 3, "(clearedRows i ys)", "idle", "is", "(v ∷ [])", "(inside i t e)")
    guards(rewrites_rows(w, "(cleared-next i ys (within i t e))"), "(i + 1)", "(i + 1) + t", "(onward i t e)")
    w.assign(f"(bin ! {w.read(4)} (lit ! tt) (record {{ fits = next-fits i t e }}))", 4, fits("next-fits i t e"), "assigns-last")
    return w.forgets(5, 6, 7).close("again ! Less Inv (i, suc t) (i + 1, t) (lt-suc-self t)")


def looping(f, w, values):
    """The section of the loop: its variant, the rows that are left; its invariant; its turns."""
    code = "γ (codedHoleys R .code (heres R ys))"
    opened = f"‵ (fobor κ q (Held R (length ys) b o γ)) ∷\n‵ (fobs {code}) ∷ ‵ (fauth {code}) ∷\n{w.standing(values)}\n[]"
    after = "(anyQ (afterTurn 𝓤 H (Below 𝓤 H A Less Inv (i, t)) (afterBlock 𝓤 H Then)))"
    turns = f"turned : (i t : ℕ) → Sq W (Inv (i, t)) (runs {f.C} {f.L} En pieces.turn-1 {after})"
    wf = "(InvImage·wf (λ (u : ℕ × ℕ). u .1) (Nat·lt-wfRel .wf))"
    parts = [
        "      -- the variant: the rows that are left",
        define("abbrev Less : ℕ × ℕ → ℕ × ℕ → Type 0", "u .1 < w .1", 6, "Less u w"),
        "      -- the invariant, with i rows cleared and t left: i + t is n, the first i are idle, and the borrow is open",
        define("abbrev Inv : ℕ × ℕ → List (Item 𝓤)", f"{guarded('(u .0)', 'u .0 + u .1')[0]} ∷ {opened}", 6, "Inv u"),
        f"      {fill(turns, 10).strip()}\n      unfolding afterTurn\n      turned i zero =\n{fill(last_turn(f, w.resumed()), 10)}\n"
        f"      turned i (suc t) =\n{fill(one_turn(w.resumed()), 10)}\n",
        define(
            f"cleared : Sq W (Inv (0, n)) (runs {f.C} {f.L} En pieces.s-{w.cut_at} (anyQ Then))",
            f"blocks ! $ loops ! 𝓣 Less {wf} Inv (λ u. turned (u .0) (u .1)) (0, n)",
            6,
        ),
    ]
    return section(f, w, "(v : Val) (is : Is R idle (v ∷ [])) ", parts)


def clear_rows():
    passed = [("n", "vint w64 n", fits("n-fits"))]
    f = Rows("clear_rows", written_slice, [COUNT], passed, locals_types("mut", "unit rows word row word bool word ptr"), [IDLE], loops=True)
    w = calls_idle(f.enters("obs", "bor"), 3).copy("(lit ! tt)", 4, fits("lit< tt"))
    guards(rewrites_rows(opens(w), "(sym (cleared-none ys))"), "0", "0 + n", "(zero-add n)").keep("rows", "open", "obs", "auth", *w.labels)
    first, w = w.cut("cleared v (subst (λ (z : Row). Is R z (v ∷ [])) er ir)")
    values = {1: "s", 2: "(vint w64 n)", 3: "v", 4: "(vint w64 (u .0))"}
    parts = [
        *f.begins("(n : ℕ) (n-fits : n < 2 ^ 64) (ok : n ≤ length ys)"),
        "  -- of a turn with i rows cleared and t left, or suc t",
        *(define(f"{name} : {type}", body, 2, f"{name} i t e") for name, type, body in TURNS),
        "  -- with the last rows zs",
        written_exits(f, "clearedRows n ys"),
        f.callees_module() + looping(f, w, values),
        f.walked(first),
        f.handed_over(1, f"{IS_LIST} (a .1 .0) (are .1 .0 .1)"),
    ]
    f.write("a walk of `clear_rows`. The borrow is opened before the loop and closed after it; each turn writes one row.", parts, OWN)


def write():
    row_at()
    store_row()
    clear_rows()
