"""The walks of the calls that `engine_ref` has, a crate for each: the four steps, one text over the table of the lists that each lends, and begin."""

from core import Callee, Script, define, finishes, listed, nest, operands
from short import PARAMS, RULES, Listed, Short

# The lent lists, in the order of the parameters, by their names in crates/ref_rules/proofs/Lists.antt; the local that each is passed in.
LISTS = "weights predStarts preds succStarts succs degrees rings ends counters buffers executed run rows".split()
SLOTS = {x: 2 + i for i, x in enumerate(LISTS)}
P, K, WHO = 15, 16, 17

OWN = {
    "Rattle·task.specs.Types": "idle",
    "Rattle·task.specs.declared.Limits": "Limits",
    "Rattle·task.specs.declared.Row": "Row",
    "Rattle·task.specs.declared.StepAnswer": "StepAnswer",
    "Rattle·task.specs.declared.WorkerId": "WorkerId",
    "Rattle·admission.specs.Admission": "Judges Knows answerOf rowAfter",
    "Rattle·admission.specs.declared.Judged": "Judged",
    "Rattle·admission.specs.declared.Stepped": "Stepped",
    "Rattle·admission.proofs.Rows": "row-stored",
    "Rattle·row_list.proofs.Params": PARAMS,
    "Rattle·row_list.proofs.Rules": RULES,
    "Rattle·ref_rules.proofs.Lists": "final Loan reads:read gives:give lives-of shares-of tokens-of lists-of Slices slices-of owned-of Lending lives shares "
    "all-tokens sizes sizes-are arguments values passed lending limits number worker slice-fits length-fits LimitsT WorkerT JudgedT RowT SteppedT "
    "StepAnswerT AnswerT BegunT limits-val worker-val sizes-val answer-val begun-mir begun-tells begun-answer begun-rows limits-makes answer-makes "
    "step-answer-makes limits-typed worker-typed sizes-typed judged-typed row-typed stepped-typed step-answer-typed answer-typed begun-typed",
    "Rattle·ref_rules.proofs.Calls": "Callees callees step-values with-values judges loads-row takes-row stores-row answers clears-rows clear-rows-triple",
}

POST = "(walkOf 𝓤 H A fn.ended stayed (fn.clauses 𝓤 H A mem run) .post here)"
VALUES = (
    "(m : Lending) (lim : Limits) (p k : ℕ) (lim-is : Is LimitsT lim (limits-val lim ∷ [])) "
    "(p-is : Is usize p (vint w64 p ∷ [])) (k-is : Is usize k (vint w64 k ∷ []))"
)


def now(*lists):
    return " ".join(f"(m .{x} .now)" for x in lists)


def new(x):
    """The list at exit, and that it is as long as it was."""
    return f"z{LISTS.index(x)}"


def long(x):
    return f"l{LISTS.index(x)}"


def kinds(lists):
    return "".join(f"List {'ℤ' if x == 'counters' else 'ℕ'} → " for x in lists)


def params(mutable, *after):
    """The limits, the lists, given up those that are written, and the values after them."""
    element = lambda x: {"counters": "i32", "rows": "RowT"}.get(x, "u32")
    return ["limits", *(f"{'gives' if x in mutable else 'reads'} {element(x)} {i} tt" for i, x in enumerate(LISTS)), *after]


def loans(lists, mutable):
    return define("abbrev loans : List Loan", listed(f"{'give' if x in mutable else 'read'} (m .{x})" for x in lists), 2)


def here(after, values):
    """What the walk's triple binds: the lists, and the arguments after them with their machine values."""
    return define(
        "abbrev here : walkOf 𝓤 H A fn.ended stayed (fn.clauses 𝓤 H A mem run) .Ghost",
        f"((lives m, shares m, tt, arguments lim m {after}, values lim m {values}), tt)",
        2,
    )


def walk(f, values, script):
    """The walk, of a function that is called with these machine values after the lists."""
    entry = "chain (all-tokens m) ∷ ‵ (owns (typesAt (fn.signature .params) (lives m)) (here .0 .3) (here .0 .4)) ∷ []"
    return f.callees_module() + f.walk("(lives m) (shares m) (here .0 .3) (here .0 .4)", entry, f"passed lim m ({values})", POST, script)


def walk_arguments(after):
    """The lists, the limits, and the arguments at these places after them, with what is known of each."""
    at = lambda name, i, end="": f"({name}{' .1' * i} .0{end})"
    rooms = " ".join(at("are", i, " .0 .1") for i in range(1, 14))
    values = [at(name, i) for name in ("a", "are") for i in (0, *after[:2])] + [at(name, i) for i in after[2:] for name in ("a", "are")]
    return f"(lending κs qs a {rooms}) {' '.join(values)}"


# ---- pieces of the scripts


def enters(locals, *after):
    """The parameters are passed, and what is owned of the lists, with the tokens of their lifetimes, is had one by one."""
    w = Short(locals, "tokens", "owned").passes(1, "(limits-typed 𝓤 H A W lim _ lim-is .0)")
    for x, i in SLOTS.items():
        w.passes(i, f"(slice-fits (m .{x}) .0)")
    w.passes(P, "(tt, record { fits = p-is .1 })").passes(K, "(tt, record { fits = k-is .1 })")
    for i, typed in after:
        w.passes(i, typed)
    w.step("pass0 !").move("owned")
    values = ["limits", *LISTS, "p", "k", *("who" for _ in after)]
    w.step("opens-owns ! (typesAt (fn.signature .params) (lives m)) (here .0 .3) (here .0 .4)", 1, "none", *reversed(values))
    return w.splits("tokens", "(all-tokens m)", *(f"token {x}" for x in LISTS))


def lends(w, lists, first, slots=SLOTS):
    """Each of these lists is reborrowed, the first as local `first`."""
    for n, x in enumerate(lists):
        w.reborrow(slots[x], first + 2 * n - 1, first + 2 * n, f"(slice-fits (m .{x}) .0)")
    return {x: first + 2 * n for n, x in enumerate(lists)}


def reads(w, *locals):
    """The operands, with what the callee asks at the head of the context."""
    w.context.insert(0, "pre")
    text = operands(*(w.read(*(i if isinstance(i, tuple) else (i,))) for i in locals))
    w.context.pop(0)
    return text


def calls_by_value(w, by, to, asked, values, lists, given, result, args, said, more=""):
    """The function `by` is called with these locals by value and with the lists, and says `said`."""
    tokens = [f"token {x}" for x in lists]
    w.joins("(tokens-of loans)", "tokens", *tokens).step("nothing !", 0, "true").joins("(owned-of loans)", "lists", *lists, rule="fjoins")
    w.move("tokens", "lists").step(f"use2 W (raw ({by}-triple 𝓤 H A mem run .pre {to})) ({asked})", 2, "pre")
    operand = [w.read(i) for i in values] + [w.read(given.get(x, SLOTS[x])) for x in lists]
    called(w, by, to, operand, result, "(tokens-of loans)", "(lives-of loans)", args, said, [*values, *lists], given, more)
    return w.splits("tokens", "(tokens-of loans)", *tokens)


def called(w, by, to, operand, result, tokens, lives, args, said, order, given, more=""):
    """The call itself, what the callee asks being at the head: the fact `said` is heard, and the last words of the lists given up are had."""
    w.call(by, to, operand, "u", result, "a", f"chain {tokens}", lives, args)
    lasts = f"{by}.ended {lives} {args}"
    w.step(f"use1 W (some (λ (zs : Lasts {lasts}). ‵ (lasts {lasts} zs) ⊛ raw (fact 𝓤 {said}){more})) (id⊢ 𝓤 _)").bind("pick !", "zs")
    w.split("ensured", "lasts", "fact")
    if more:
        w.split("fact", "fact", "more")
    w.move("fact").bind(f"heard ! {said}", "steps", 1)
    for x in order:
        w.split("lasts", f"last {x}", "lasts", rule="fsplit")
        if x in given:
            w.split(f"last {x}", f"final {x}", "long", rule="fsplit").move("long").bind("feqL !", long(x), 1)
    w.split("tokens∗answer", "tokens", "answer").peek("answer", result[1], "a", "(u ∷ [])", "a-is")


def leaves(w, written):
    """At the end of the walk: the tokens are made one, and the last words of the lists that are written are kept."""
    w.leave().joins("(all-tokens m)", "tokens", *(f"token {x}" for x in LISTS))
    return "tokens", *(f"final {x}" for x in written)


def exits(given, written, values, answer, result, law, owned, first=""):
    """A lemma: what is left is had as the walk's triple asks, with the tokens, the last words of the lists that are written, and the answer."""
    lists = " ".join(f"({new(x)} : List {({'counters': 'ℤ', 'rows': 'Row'}).get(x, 'ℕ')})" for x in written)
    longs = " → ".join(f"length {new(x)} ≡ length {now(x)}" for x in written)
    left = listed(["chain (all-tokens m)", *(f"‵ (final (m .{x}) {new(x)})" for x in written)])
    lasts, fits = (nest([f(x) if x in written else "tt" for x in values]) for f in (new, long))
    s = Script("tokens", *written)
    s.step(finishes("here", f"{answer} {result}\n{lasts}\n{fits}"))
    s.step(f"says ! ({law})").step("frame !", 1).step("nothing !", 0, "had")
    for x in reversed(values):
        if x not in written:
            s.step("nothing !", 0, x)
        s.join(x, "had", "had", "fjoin")
    names = " ".join(map(new, written)), " ".join(map(long, written))
    return define(
        f"exits : {lists} → {longs} → {' → '.join(type for _, type in given)} → ent 𝓤 (⋆ 𝓤 H A ({left})) ({POST} {answer})",
        f"{first}qed W ({left}) ∵\n{s.step('frame !', 1).text}{owned} $ done !",
        2,
        f"exits {names[0]} {names[1]} {' '.join(name for name, _ in given)}",
    )


# ---- the steps


class Together:
    """What every step calls beside its own by value, known together."""

    known, dashed = "shared", "callees"

    def modules(self):
        return []

    def met(self, table):
        return f"Callees 𝓤 H A mem run {table if table.isalpha() else f'({table})'}"

    def cited(self):
        calls = ["admission·judge", "row-list·row-at", "admission·row-after", "row-list·store-row", "admission·answer-of"]
        return f"(callees 𝓤 H 𝓜 𝓖 𝓡 code.env {' '.join(f'code.calls-{c}' for c in calls)})"


class Step:
    """A step: its name, what its step by value says, of the lists before and after (′), and of the row; the lists that it is lent (* written)."""

    def __init__(self, name, rule, row, lists, said):
        self.name, self.rule, self.row, self.said = name, rule, row, said
        self.lists = [x.strip("*") for x in lists.split()]
        self.mutable = [x.strip("*") for x in lists.split() if x.startswith("*")]
        self.core = Callee(name, f"{name}_row")
        self.by = self.core.dashed

    def last(self, x):
        """The list among the last values of the step by value."""
        return f"(zs{' .1' * (6 + self.lists.index(x))} .0)"

    def says(self):
        words = {x: now(x) for x in self.lists} | {f"{x}′": new(x) for x in self.mutable}
        return f"{self.rule} p k (who .0) (sizes m) j r {self.said.format(**words)} a"


STEPS = [
    Step(
        "fetch",
        "Fetches",
        "HandAndPointer",
        "rings *ends *run",
        "{rings} {ends} {ends′} {run} {run′}",
    ),
    Step("start", "Starts", "PhaseAlone", "*run", "{run} {run′}"),
    Step(
        "complete",
        "Completes",
        "HandAndWrite",
        "weights succStarts *counters *buffers *executed *run",
        "{weights} {succStarts} {counters} {counters′} {buffers} {buffers′} {executed} {executed′} {run} {run′}",
    ),
    Step(
        "release",
        "Releases",
        "ReadAndCursor",
        "weights succStarts succs *degrees *rings *ends *counters buffers *run",
        "(tables-of {weights} {succStarts} {succs} {buffers}) (wordsOf {degrees} {rings} {ends} {counters} {run}) "
        "(wordsOf {degrees′} {rings′} {ends′} {counters′} {run′})",
    ),
]


def step_script(step):
    sizes, judged, row, stepped, lengths, lent = 18, 19, 20, 21, 22, 36
    unit = lent + 1 + 2 * len(step.mutable)
    again, after = unit + 2, unit + 3
    w = enters(after + 1, (WHO, "(worker-typed 𝓤 H A W who _ who-is .0)")).note("the lengths are read")
    for n, (x, i) in enumerate(SLOTS.items()):
        w.copy(w.read(i, 1), lengths + n, f"(length-fits (m .{x}) .0)")
    w.assign(f"(agg ! {operands(*(w.read(lengths + n) for n in range(13)))})", sizes, "(sizes-typed 𝓤 H A W (sizes m) _ (sizes-are m) .0)")
    w.note("2, 1 and 7 are judged; the worker's row is read")
    judges = "judges mem run lim (sizes m) p k who ! fm (shared .0) lim-is (sizes-are m) p-is k-is who-is"
    w.bind(f"{judges} {reads(w, 1, sizes, P, K, WHO)}", "jv j judging j-is").lands(judged, "(judged-typed 𝓤 H A W j _ j-is .0)")
    lends(w, ["rows"], lent)
    w.move("rows", "token rows")
    loads = f"loads-row mem run (m .rows) who ! fm (shared .1 .0) who-is (λ ν δ. {operands(w.read(lent), w.read(WHO))})"
    w.bind(loads, "v r loaded r-is").lands(row, "(row-typed 𝓤 H A W r _ r-is .0)").note("the step by value, on the lists that it needs")
    given, values = lends(w, step.mutable, lent + 2), (sizes, judged, P, K, WHO, row)
    asked, result = "asked j jv r v (judging .1) j-is r-is", ("Stepped", "SteppedT")
    more, lasts = f" ⊛ raw (fact 𝓤 ({step.row} r a))", " ".join(map(step.last, step.mutable))
    calls_by_value(w, step.by, "(to j jv r v)", asked, values, step.lists, given, result, "(args j r)", f"(Said j r a {lasts})", more)
    w.lands(stepped, "(stepped-typed 𝓤 H A W a _ a-is .0)").note("the row that is then the worker's is stored; the answer")
    lends(w, ["rows"], again)
    w.bind(f"takes-row mem run a u ! fm (shared .1 .1 .0) r v a-is r-is {reads(w, stepped, row)}", "w z after z-is")
    w.lands(after, "(row-typed 𝓤 H A W z _ z-is .0)").move("rows", "token rows")
    w.context[:2] = []
    stores = f"stores-row mem run (m .rows) who ! fm (shared .1 .1 .1 .0) who-is z w z-is {reads(w, again, WHO, after)}"
    w.bind(stores, "t z12 stored l12 typed", 0, "final rows", "token rows").lands(unit, "(typed .0)")
    w.bind(f"answers mem run a u ! fm (shared .1 .1 .1 .1) a-is {reads(w, stepped)}", "x y answered y-is")
    left = leaves(w.lands(0, "(step-answer-typed 𝓤 H A W y _ y-is .0)"), [*step.mutable, "rows"])
    longs = " ".join(map(long, [*step.mutable, "rows"]))
    return w.end(f"exits {lasts} z12 {longs} j (judging .0) r loaded a steps z after stored x y answered y-is", *left)


def step_exits(step):
    rows = now("rows")
    given = [
        ("j judging", "(j : Judged) → Judges lim p k (who .0) (sizes m) j"),
        ("r loaded", f"(r : Row) → r ≡ getD {rows} (who .0) idle"),
        ("a steps", f"(a : Stepped) → Said j r a {' '.join(map(new, step.mutable))}"),
        ("z after stored", f"(z : Row) → z ≡ rowAfter r a → z12 ≡ set {rows} (who .0) z"),
        ("x y answered y-is", "(x : Val) (y : StepAnswer) → y ≡ answerOf a → Is StepAnswerT y (x ∷ [])"),
    ]
    stored = f"stored ∙ ap (set {rows} (who .0)) after ∙ row-stored {rows} (who .0) r loaded a"
    news = " ".join(map(new, step.mutable))
    law = f"{step.name}-made {now(*LISTS)} (sizes m) refl lim p k (who .0) j judging z12 r a y loaded (answered, put) {news} steps"
    owned = "owned ! StepAnswerT (Is StepAnswerT) (step-answer-makes 𝓤 H A) y _ y-is"
    return exits(given, [*step.mutable, "rows"], ["limits", *LISTS, "p", "k", "who"], "x", "y", law, owned, f"let put = {stored} in\n")


def step_lends(step):
    """What the step by value is lent, passed and asks, and what it says."""
    by, args = step.by, nest(["sizes m", "j", "p", "k", "who", "r"], "lists-of loans")
    asks = "chain (tokens-of loans) ∷ ‵ (fchain (owned-of loans)) ∷ []"
    return [
        f"  -- what `{step.name}_row` is lent, passed and asks, and what it says\n" + loans(step.lists, step.mutable),
        define(f"abbrev args : Judged → Row → Args {by}.signature (lives-of loans)", args, 2, "args j r"),
        define(
            f"abbrev to : Judged → Val → Row → Val → {by}-triple 𝓤 H A mem run .Ghost",
            "((lives-of loans, shares-of loans, tt, args j r, step-values (sizes m) jv p k who v (slices-of loans)), tt)",
            2,
            "to j jv r v",
        ),
        define(
            "asked : (j : Judged) (jv : Val) (r : Row) (v : Val) → Knows p k (who .0) (sizes m) j → Is JudgedT j (jv ∷ []) → Is RowT r (v ∷ []) → "
            f"ent 𝓤 (⋆ 𝓤 H A ({asks})) ({by}-triple 𝓤 H A mem run .pre (to j jv r v))",
            f"let measured = {step.name}-lent {now(*LISTS)} (sizes m) refl in\nqed W ({asks}) ∵ says ! (known, measured) $ frame ! $\n"
            "with-values ! (sizes m) j jv p k who r v (sizes-are m) j-is p-is k-is who-is r-is $ done !",
            2,
            "asked j jv r v known j-is r-is",
        ),
        define(f"abbrev Said : Judged → Row → Stepped → {kinds(step.mutable)}Type 0", step.says(), 2, f"Said j r a {' '.join(map(new, step.mutable))}"),
    ]


def write_step(step):
    f = Listed(f"ref_{step.name}", step.name, 13, params([*step.mutable, "rows"], "number", "number", "worker"), [Together(), step.core])
    parts = [
        step.core.triple(),
        f.stayed(),
        f.module(f"{VALUES} (who : WorkerId) (who-is : Is WorkerT who (worker-val who ∷ []))").rstrip("\n"),
        here("(p, (k, (who, tt)))", "(vint w64 p ∷ [], (vint w64 k ∷ [], (worker-val who ∷ [], tt)))"),
        *step_lends(step),
        step_exits(step),
        walk(f, "vint w64 p ∷ vint w64 k ∷ worker-val who ∷ []", step_script(step)),
        f.handed_over(13, walk_arguments((14, 15, 16)), asks=False),
    ]
    tables = " tablesOf:tables-of wordsOf" if step.name == "release" else ""
    own = OWN | {
        f"Rattle·{step.name}.specs.{step.name.capitalize()}": f"{step.rule} {step.row}{tables}",
        "Rattle·call_laws.proofs.Laws": f"{step.name}-lent {step.name}-made",
    }
    f.write(f"a walk of `{step.name}`. The worker's row is read, the step is taken by value, and the row is stored.", parts, own)


# ---- begin

LAID = LISTS[3:12]  # what it lays down beside the rows
BEGIN = Callee("begin", "begin_lists")


def last_laid(x):
    return f"(zs{' .1' * (4 + LISTS.index(x))} .0)"


def begin_script():
    begun, count, lent = 17, 18, 20
    unit, lasts = lent - 1 + 2 * len(LAID), " ".join(map(last_laid, LAID))
    w = enters(unit + 3)
    w.copy(w.read(SLOTS["rows"], 1), count, "(length-fits (m .rows) .0)")
    given = lends(w.note("begin by value, on all lists but the rows"), LAID, lent)
    calls_by_value(w, "begin-lists", "to", "asked", (1, count, P, K), LISTS[:12], given, ("Begun", "BegunT"), "args", f"(Said a {lasts})")
    w.lands(begun, "(begun-typed 𝓤 H A W a _ a-is .0)")
    w.step(f"rewrite ! {w.at(f'_{begun}')} (λ (z : Val). ‵ (fat fullShare begun-mir l₁₇ 0 z)) (begun-tells a u a-is) refl")
    lends(w.note("so many rows are cleared as it says; the answer"), ["rows"], unit + 2)
    w.move("rows", "token rows")
    w.context[:2] = []
    clears = f"clears-rows mem run ! fm known-clear-rows (m .rows) (a .rows) (begun-rows a _ a-is) (steps .1) {reads(w, unit + 2, (begun, 1))}"
    w.bind(clears, "t z12 cleared l12 typed", 0, "final rows", "token rows").lands(unit, "(typed .0)")
    w.copy(w.read(begun, 0), 0, "(answer-typed 𝓤 H A W (a .answer) _ (begun-answer a _ a-is) .0)")
    left = leaves(w, [*LAID, "rows"])
    return w.end(f"exits {lasts} z12 {' '.join(map(long, [*LAID, 'rows']))} a (begun-answer a _ a-is) steps cleared", *left)


def begin_exits():
    news, answer = " ".join(map(new, LAID)), "(answer-val (a .answer))"
    given = [
        ("a is", "(a : Begun) → Is AnswerT (a .answer) (answer-val (a .answer) ∷ [])"),
        ("steps cleared", f"Said a {news} → z12 ≡ clearedRows (a .rows) {now('rows')}"),
    ]
    law = f"begin-made {now(*LISTS)} lim p k z12 a {news} (length {now('rows')}) refl cleared steps"
    owned = "owned ! AnswerT (Is AnswerT) (answer-makes 𝓤 H A) (a .answer) _ is"
    return exits(given, [*LAID, "rows"], ["limits", *LISTS, "p", "k"], answer, "(a .answer)", law, owned)


def write_begin():
    f = Listed("ref_begin", "begin", 13, params([*LAID, "rows"], "number", "number"), [BEGIN, Callee("row_list", "clear_rows")])
    asks, rows = "chain (tokens-of loans) ∷ ‵ (fchain (owned-of loans)) ∷ []", f"(length {now('rows')})"
    numbers = [("k", "k-is"), ("p", "p-is"), (rows, "(refl, m .rows .room .0)")]
    asked = Script("tokens", "own")
    asked.move("own")
    for n, is_ in numbers:
        asked.step(f"owned ! usize (Is usize) (uint-makes 𝓤 H A W w64) {n} _ {is_} $ fjoin !")
    asked.step("owned ! LimitsT (Is LimitsT) (limits-makes 𝓤 H A) lim _ lim-is $ fjoin !").join("tokens", "own", "all").step("nothing !", 0, "none")
    asked.move("all", "none")
    passed = f"(limits-val lim ∷ [], (vint w64 {rows} ∷ [], (vint w64 p ∷ [], (vint w64 k ∷ [], slices-of loans))))"
    said = (
        f"Begins lim p k {rows} (memory {now(*LISTS[:12])}) (memory {now(*LISTS[:3])} {' '.join(map(new, LAID))}) a"
    )
    parts = [
        BEGIN.triple(),
        f.stayed(),
        f.module(VALUES).rstrip("\n"),
        here("(p, (k, tt))", "(vint w64 p ∷ [], (vint w64 k ∷ [], tt))"),
        "  -- what `begin_lists` is lent, passed and asks, and what it says\n" + loans(LISTS[:12], LAID),
        define("abbrev args : Args begin-lists.signature (lives-of loans)", f"(lim, ({rows[1:-1]}, (p, (k, lists-of loans))))", 2),
        define("abbrev vss : List Val × (List Val × (List Val × (List Val × Slices loans)))", passed, 2),
        define("abbrev to : begin-lists-triple 𝓤 H A mem run .Ghost", "((lives-of loans, shares-of loans, tt, args, vss), tt)", 2),
        define(f"asked : ent 𝓤 (⋆ 𝓤 H A ({asks})) (begin-lists-triple 𝓤 H A mem run .pre to)", f"qed W ({asks}) ∵ {asked.text}done !", 2),
        define(f"abbrev Said : Begun → {kinds(LAID)}Type 0", said, 2, f"Said a {' '.join(map(new, LAID))}"),
        begin_exits(),
        walk(f, "vint w64 p ∷ vint w64 k ∷ []", begin_script()),
        f.handed_over(13, walk_arguments((14, 15)), asks=False),
    ]
    own = OWN | {
        "Rattle·rules.specs.Memory": "memOf:memory",
        "Rattle·rows.specs.Rows": "clearedRows",
        "Rattle·begin.specs.Begin": "Begins",
        "Rattle·begin.specs.declared.Begun": "Begun",
        "Rattle·call_laws.proofs.Laws": "begin-made",
    }
    f.write("a walk of `begin`. All lists but the rows are laid down by value, then so many rows are cleared as that says.", parts, own)


def write():
    for step in STEPS:
        write_step(step)
    write_begin()
