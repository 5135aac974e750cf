"""The walks of crate `ring`: an end advanced behind a `&mut Ends`, and the same on a local record that is lent."""

from core import USIZE, Function, Plain, Walk, define, finishes, given_slice, mut_ref, nest

OWN = {
    "Rattle·task.specs.declared.Ends": "Ends",
    "Rattle·task.proofs.Ends.Laws": "as T′",
    "Rattle·task.specs.Types": "engine",
    "Rattle·ring·specs.specs.Ring": "endWords endsAt storeEnds Sound Empty headOn tailOn",
    "Rattle·ring·proofs.proofs.Records": "EndsT ends-val ends-vals ends-tells head-fits tail-fits ends-makes ends-typed",
    "Rattle·ring·proofs.proofs.Local": "lends-local local-back",
    "Rattle·ring·proofs.proofs.EndWords": "store-ends-triple to-store-ends store-ends-asks",
}

ENDS = Plain("EndsT", "ends-vals", "ends-tells")


def asks(ends, more):
    """What is asked of the ends: that they are sound, and what a take asks beside it."""
    few = "(k ≤ engine .slots)"
    return f"Sound k {ends} × " + (f"({few} × {more} {ends}))" if more else few)


def typed(value, is_):
    return f"(ends-typed 𝓤 H A W {value} _ {is_} .0)"


def owns_usize(n, fits):
    return f"owned ! usize (Is usize) (uint-makes 𝓤 H A W w64) {n} _ (refl, {fits}) $ fjoin !"


def owns_ends(e, is_):
    return f"owned ! EndsT (Is EndsT) (ends-makes 𝓤 H A) {e} _ {is_} $ fjoin !"


def arguments(types, a, at):
    """The definitions that a walk begins with: its arguments, their machine values, and what is to be shown at exit."""
    product = lambda kinds: nest(kinds, "Unit {0}").replace(", ", " × ")[1:-1]
    walk = "walkOf 𝓤 H A fn.ended stayed (fn.clauses 𝓤 H A mem run) .post (((κ, tt), (q, tt), tt, a, at), tt)"
    return [
        define("abbrev Arg : Type 0", product(types), 2),
        define("abbrev a : Arg", nest(a), 2),
        define(f"abbrev at : {product(['List Val'] * len(types))}", nest(at), 2),
        define("abbrev Post : Val → SProp 𝓤", walk, 2),
    ]


def finished(*ends):
    return finishes("(((κ, tt), (q, tt), tt, a, at), tt)", " ".join(ends))


def walk(f, values, script):
    """The walk of a function of one lifetime, called with these machine values."""
    entry = f"(‵ (flft κ q) ⊛ ‵ ftrue) ∷ ‵ (owns ({f.types()}) a at) ∷ []"
    return f.callees_module() + f.walk("(κ, tt) (q, tt) a at", entry, values, "Post", script)


def advance_script(callee, field, args, fits):
    by = callee.replace("_", "-")
    w = Walk(5, "tokens", "owned")
    w.passes(1, "(tt, tt)").passes(2, "(tt, record { fits = k-fits })").step("pass0 !")
    w.split("tokens", "life", "true").split("owned", "ref", "k", rule="fsplit").step("fsplit3 !", 1, "values", "obs", "bor").drop("values")
    w.note("the borrow of the ends is opened, and the record read")
    w.move("obs", "bor", "life").bind("opens ! tt EndsT {h = h} b o", "vs", 3, "cell", "ends", "open", "obs", "auth")
    w.step("spelt ! EndsT (Is EndsT) (shows 𝓤 H A EndsT) ends-vals ends-tells fullShare h vs b o")
    w.peek("ends", "EndsT", "h", "(ends-vals h)", "was")
    w.load_through(1, "cell", 3, typed("h", "was"))
    w.note(f"`{callee}`, by value")
    w.step(f"use0 W (raw ({by}-triple 𝓤 H A mem run .pre to)) (asks was)", 0, "pre")
    w.call(by, "to", [w.read(3), w.read(2)], "w", ("Ends", "EndsT"), "r", "‵ ftrue", "tt", args)
    w.step("use1 W (raw (fact 𝓤 (Said r))) (said r)").bind("heard ! (Said r)", "e", 1)
    w.split("tokens∗answer", "none", "new").peek("new", "EndsT", "r", "(w ∷ [])", "is")
    w.lands(4, typed("r", "is")).store_through(1, "cell", w.read(4), typed("r", "is"))
    w.copy(w.read(3, field), 0, f"(tt, record {{ fits = {fits} }})")
    w.note("the borrow is closed at the new ends")
    w.move("cell", "new", "open", "obs", "auth").step("closes ! tt EndsT r (w ∷ []) b o", 5, "obs", "bor", "life")
    return w.leave().end("exits r e was", "obs", "bor", "life")


def advance_call(callee, args, on):
    """What the callee binds, asks and says."""
    by = callee.replace("_", "-")
    return [
        f"  -- what `{callee}` binds, asks and says",
        define(f"abbrev to : {by}-triple 𝓤 H A mem run .Ghost", f"((tt, tt, tt, {args}, (ends-vals h, (vint w64 k ∷ [], tt))), tt)", 2),
        define(
            f"asks : Is EndsT h (ends-vals h) → ent 𝓤 (emp 𝓤) ({by}-triple 𝓤 H A mem run .pre to)",
            "qed W [] ∵ says ! ok $ nothing ! $ frame ! $ nothing ! $ "
            f"{owns_usize('k', 'k-fits')} $ {owns_ends('h', 'was')} $ done !",
            2,
            "asks was",
        ),
        define("abbrev Said : Ends → Type 0", f"r ≡ {on} k h", 2, "Said r"),
        define(
            f"said : (r : Ends) → ent 𝓤 (ensured 𝓤 H A {by}.ended ({by}.clauses 𝓤 H A mem run) tt {args} tt r) (fact 𝓤 (Said r))",
            f"exE 𝓤 _ (λ ws. snd∗ 𝓤 (sem 𝓤 H A (lasts {by}.ended tt {args} ws)) (fact 𝓤 (Said r)))",
            2,
            "said r",
        ),
    ]


def advance(name, callee, end, field, on, asked=""):
    """`append`, `take`: the record behind the reference is read, and stored as the callee advances it; the end that it had is the answer."""
    f = Function("ring", name, [mut_ref(0, "EndsT"), USIZE], [callee])
    args, slot, fits = "(h, (k, tt))", f"(vint w32 (h .{end}))", f"{end}-fits h _ was"
    left = "‵ (fobs γ (EndsT .coded .code r)) ∷ ‵ (fbor κ (Body (memOf EndsT) b o γ)) ∷ ‵ (flft κ q) ∷ []"
    values = "vptr b o ∷ vint w64 k ∷ []"
    parts = [
        f.triples(),
        f.stayed(),
        f.module(
            "(κ : Lft) (q : Share) (b o : ℕ) (γ : GName) (h : Ends) (k : ℕ) (k-fits : k < 2 ^ 64) "
            f"(ok : {asks('h', asked)})"
        )
        + "  -- the ends h at (b, o), a ring of k slots",
        *arguments(["RefT Ends", "ℕ"], ["record { ptr = (b, o); name = γ; now = h }", "k"], ["vptr b o ∷ []", "vint w64 k ∷ []"]),
        *advance_call(callee, args, on),
        define(
            f"exits : (r : Ends) → Said r → Is EndsT h (ends-vals h) → ent 𝓤 (⋆ 𝓤 H A ({left})) (Post {slot})",
            f"qed W ({left}) ∵\n{finished(slot, f'(h .{end})', '(r, (tt, tt))', '(tt, (tt, tt))')} $ says ! (refl, e) $\n"
            "nothing ! $ move ! (3 ∷ 0 ∷ []) $ join ! $ frame ! $ feqI ! (List Val) (vptr b o ∷ []) (vptr b o ∷ []) refl $ fjoin3 ! $ "
            f"nothing ! $ {owns_usize('k', 'k-fits')} $ move ! (1 ∷ 0 ∷ []) $ fjoin ! $ frame ! $ "
            f"owned ! u32 (Is u32) (uint-makes 𝓤 H A W w32) (h .{end}) _ (refl, {fits}) $ done !",
            2,
            "exits r e was",
        ),
        walk(f, values, advance_script(callee, field, args, fits)),
        f.handed_over(1, "(κs .0) (qs .0) (a .0 .ptr .0) (a .0 .ptr .1) (a .0 .name) (a .0 .now) (a .1 .0) (are .1 .0 .1)"),
    ]
    f.write(f"a walk of `{name}`. The record behind the reference is read, and stored as `{callee}` advances it.", parts, OWN)


def lend_local(w, callee):
    """The record in local 5 is lent to the callee, which answers with a slot, and comes back advanced: it is `zs .0`."""
    life, args = "(ν ∷ [], tt)", "(lent δ l₅, (k, tt))"
    w.note(f"the local record is lent to `{callee}`")
    w.bind("lft-new ! tt", "ν", 0, "call")
    w.move("_5").step("use1 W (‵ (cellAt fullShare (EndsT .mir) (ends-vals h) l₅ 0)) (W .laws .at-raw fullShare T′.mir l₅ 0 (ends-val h))")
    w.step("owned ! EndsT (Is EndsT) (ends-makes 𝓤 H A) h _ is", 0, "ends").move("_5", "ends")
    w.step(
        "use2 W (later (some (λ (δ : GName). ‵ (MutRef (named 0) (ν ∷ []) EndsT .own (lent δ l₅) (vptr l₅ 0 ∷ [])) "
        "⊛ ‵ (flent (ν ∷ []) (Body (memOf EndsT) l₅ 0 δ))))) (lends-local 𝓤 H A W EndsT (named 0) (ν ∷ []) h (ends-vals h) l₅ 0)",
        2,
        "lent",
    )
    w.step("await ! tt").bind("pick !", "δ").split("lent", "ref", "lender")
    w.move("call", "ref").step(f"use2 W (raw ({callee}-triple 𝓤 H A mem run .pre (to ν δ l₅))) (asks ν δ l₅)", 2, "pre")
    tokens = "(‵ (flft (ν ∷ []) fullShare) ⊛ ‵ ftrue)"
    w.call(callee, "(to ν δ l₅)", [w.read(7), w.read(2)], "u", ("ℕ", "u32"), "x", tokens, life, args)
    w.heard_last(callee, "zs", life, args, "(Said x (zs .0))", "e")
    w.split("lasts", "last", "rest", rule="fsplit")
    w.split("tokens∗answer", "tokens", "slot").peek("slot", "u32", "x", "(u ∷ [])", "ix")
    w.lands(6, "(uint-lawful 𝓤 H A W w32 .typed x _ ix .0)")
    w.note("it comes back advanced")
    w.split("tokens", "call", "none").step("lft-end ! tt", 1, "dead").move("dead", "lender", "last")
    w.step(
        "use3 W (later (‵ (cellAt fullShare (EndsT .mir) (ends-vals (zs .0)) l₅ 0) ⊛ ‵ (EndsT .own (zs .0) (ends-vals (zs .0))))) "
        "(local-back 𝓤 H A W EndsT (Is EndsT) (shows 𝓤 H A EndsT) ends-vals ends-tells (ν ∷ []) δ (zs .0) l₅ 0)",
        3,
        "back",
    )
    w.step("await ! tt").split("back", "_5", "ends")
    w.step("use1 W (‵ (fat fullShare T′.mir l₅ 0 (ends-val (zs .0)))) (W .laws .raw-at fullShare T′.mir l₅ 0 (ends-val (zs .0)))")
    w.peek("ends", "EndsT", "(zs .0)", "(ends-vals (zs .0))", "iz")


def store_ends(w):
    """The record, now in local 5, is stored by `store_ends` as the ends of the ring."""
    stored, words = "(to-store-ends 𝓤 H A W mem run b o xs p p-fits (ok .0) κ q γ (zs .0))", "(words, (p, (zs .0, tt)))"
    w.note("`store_ends`, on the words given up to it")
    w.reborrow(1, 9, 10, "room .0").copy(w.read(5), 11, typed("(zs .0)", "iz"))
    w.move("life", "words").step(
        f"use2 W (raw (store-ends-triple 𝓤 H A mem run .pre {stored})) "
        "(store-ends-asks 𝓤 H A W mem run b o xs p p-fits (ok .0) κ q γ (zs .0) iz)",
        2,
        "pre",
    )
    reads = [w.read(10), w.read(3), w.read(11)]
    w.call("store-ends", stored, reads, "v", ("Unit {0}", "unit"), "y", "(‵ (flft κ q) ⊛ ‵ ftrue)", "(κ, tt)", words)
    w.heard_last("store-ends", "ws", "(κ, tt)", words, "(ws .0 ≡ storeEnds xs p (zs .0))", "e₂")
    w.split("lasts", "last", "rest₂", rule="fsplit").step("fsplit !", 1, "final", "long").move("long").bind("feqL !", "len", 1)
    w.split("tokens∗answer", "tokens", "unit").peek("unit", "unit", "y", "(v ∷ [])", "iy")
    w.lands(8, "(nothing-lawful 𝓤 H A W .typed y _ iy .0)").split("tokens", "life", "none₂")


def advance_at_script(callee):
    w = Walk(12, "tokens", "owned")
    w.passes(1, "(tt, (tt, (record { fits = room .0 }, tt)))")
    w.passes(2, "(tt, record { fits = k-fits })").passes(3, "(tt, record { fits = p-fits })").passes(4, typed("h", "is")).step("pass0 !")
    w.split("tokens", "life", "true").split("owned", "words", "plain", rule="fsplit")
    w.copy(w.read(4), 5, typed("h", "is")).assign("(addr ! (from ! (stop !)))", 7, "(tt, tt)")
    lend_local(w, callee)
    store_ends(w)
    w.copy(w.read(6), 0, "(uint-lawful 𝓤 H A W w32 .typed x _ ix .0)")
    return w.leave().end("exits x u (zs .0) (ws .0) e e₂ len", "life", "final", "slot")


def advance_at_call(callee, end, on):
    """The local record, and what the callee that it is lent to binds, asks and says."""
    asked = "‵ (flft (ν ∷ []) fullShare) ∷ ‵ (MutRef (named 0) (ν ∷ []) EndsT .own (lent δ l) (vptr l 0 ∷ [])) ∷ []"
    ghost = "(((ν ∷ [], tt), (fullShare, tt), tt, (lent δ l, (k, tt)), (vptr l 0 ∷ [], (vint w64 k ∷ [], tt))), tt)"
    return [
        f"  -- the local record at (l, 0), lent under the name δ: what `{callee}` binds, asks and says",
        define("abbrev lent : GName → ℕ → RefT Ends", "record { ptr = (l, 0); name = δ; now = h }", 2, "lent δ l"),
        define(f"abbrev to : ℕ → GName → ℕ → {callee}-triple 𝓤 H A mem run .Ghost", ghost, 2, "to ν δ l"),
        define(
            f"asks : (ν : ℕ) (δ : GName) (l : ℕ) → ent 𝓤 (⋆ 𝓤 H A ({asked})) ({callee}-triple 𝓤 H A mem run .pre (to ν δ l))",
            f"qed W ({asked}) ∵\nsays ! (ok .1 .1) $ nothing ! $ move ! (1 ∷ 0 ∷ []) $ join ! $ frame ! $ nothing ! $ "
            f"{owns_usize('k', 'k-fits')} $ move ! (1 ∷ 0 ∷ []) $ fjoin ! $ done !",
            2,
            "asks ν δ l",
        ),
        define("abbrev Said : ℕ → Ends → Type 0", f"(x ≡ h .{end}) × (z ≡ {on} k h)", 2, "Said x z"),
    ]


def advance_at(name, callee, end, on, asked=""):
    """`append_at`, `take_at`: a local copy of the ends is lent to the callee, which advances it, and stored among the words of all ends."""
    f = Function("ring", name, [given_slice(0, "u32"), USIZE, USIZE, ENDS], [callee, "store_ends"])
    left = "‵ (flft κ q) ∷ ‵ (finally u32 γ ws) ∷ ‵ (u32 .own x (u ∷ [])) ∷ []"
    ring = f"(p * endWords + endWords ≤ length xs) × ((h ≡ endsAt xs p) × ({asks('h', asked)}))"
    parts = [
        f.triples(["store-ends"]),
        f.stayed(),
        f.module(
            "(κ : Lft) (q : Share) (b o : ℕ) (γ : GName) (xs : List ℕ) (k p : ℕ) (h : Ends) (k-fits : k < 2 ^ 64) (p-fits : p < 2 ^ 64) "
            f"(is : Is EndsT h (ends-vals h)) (room : Room u32 (length xs)) (ok : {ring})"
        )
        + "  -- the words xs of all ends at (b, o), the ring p with its ends h",
        define("abbrev words : RefT (List ℕ)", "record { ptr = (b, o); name = γ; now = xs }", 2),
        define("abbrev s : Val", "sliceVal (b, o) (length xs)", 2),
        *arguments(
            ["RefT (List ℕ)", "ℕ", "ℕ", "Ends"],
            ["words", "k", "p", "h"],
            ["s ∷ []", "vint w64 k ∷ []", "vint w64 p ∷ []", "ends-vals h"],
        ),
        *advance_at_call(callee, end, on),
        define(
            "exits : (x : ℕ) (u : Val) (z : Ends) (ws : List ℕ) → Said x z → ws ≡ storeEnds xs p z → length ws ≡ length xs → "
            f"ent 𝓤 (⋆ 𝓤 H A ({left})) (Post u)",
            f"qed W ({left}) ∵\n{finished('u', 'x', '(ws, (tt, (tt, (tt, tt))))', '(len, (tt, (tt, (tt, tt))))')} $ "
            "says ! (e .0, e₂ ∙ ap (storeEnds xs p) (e .1)) $\nnothing ! $ move ! (1 ∷ 0 ∷ []) $ join ! $ frame ! $ nothing ! $ "
            f"{owns_ends('h', 'is')} $ {owns_usize('p', 'p-fits')} $ {owns_usize('k', 'k-fits')} $ move ! (1 ∷ 0 ∷ []) $ fjoin ! $ frame ! $ done !",
            2,
            "exits x u z ws e e₂ len",
        ),
        walk(f, "s ∷ vint w64 k ∷ vint w64 p ∷ ends-vals h", advance_at_script(callee)),
        f.handed_over(
            1,
            "(κs .0) (qs .0) (a .0 .ptr .0) (a .0 .ptr .1) (a .0 .name) (a .0 .now) (a .1 .0) (a .1 .1 .0) (a .1 .1 .1 .0) "
            "(are .1 .0 .1) (are .1 .1 .0 .1) (are .1 .1 .1 .0) (are .0 .0 .1)",
        ),
    ]
    f.write(f"a walk of `{name}`. A local copy of the ends is lent to `{callee}`, and stored among the words of all ends.", parts, OWN)


def write():
    advance("append", "tail_on", "tail", 1, "tailOn")
    advance("take", "head_on", "head", 0, "headOn", "¬ (Empty")
    advance_at("append_at", "append", "tail", "tailOn")
    advance_at("take_at", "take", "head", "headOn", "¬ (Empty")
