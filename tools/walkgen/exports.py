"""The walks of crate `ref_export`: each call of `engine_ref`, at the engine's limits, with its answer turned into a reply."""

from calls import LAID, LISTS, POST, STEPS, called, exits, kinds, lends, loans, long, new, now, params, reads
from core import Callee, Script, define, listed, nest, operands
from short import PARAMS, RULES, Listed, Short

# The local that each list is passed in; there is no parameter for the limits.
SLOTS = {x: 1 + i for i, x in enumerate(LISTS)}
P, K, WORKER = 14, 15, 16


class Limits(Callee):
    """`Limits::engine`, an associated function."""

    def __init__(self):
        super().__init__("task", "Limits.engine")
        self.dashed, self.symbol, self.known = "limits-engine", "task·Limits·engine", "known-limits-engine"


class Call:
    """A call: its name, the lists that it writes, whether a worker makes it; its answer, its rule, its reply, and the law that joins them."""

    def __init__(self, name, mutable, by_worker):
        self.name, self.mutable, self.by_worker = name, [*mutable, "rows"], by_worker
        self.answer, self.reply, self.reply_of = ("StepAnswer", "StepReply", "stepReplyOf") if by_worker else ("Answer", "Reply", "replyOf")
        step = f" i Kind.{name.capitalize()}" if by_worker else ""
        self.word = "step-" if by_worker else ""
        self.rule = f"{'stepOf' if by_worker else 'beginOf'} lim p k{step}"
        self.law = f"{'step' if by_worker else 'begin'}-replied lim engine p k {self.reply_of}{step}"
        self.core, self.replies = Callee(f"ref_{name}", name), Callee("replies", f"{self.word}reply_of".replace("-", "_"))

    def values(self, *parts):
        """What comes after the lists: P, K and, of a step, the worker's part."""
        return list(parts) if self.by_worker else list(parts[:2])


CALLS = [Call("begin", LAID, False), *(Call(step.name, step.mutable, True) for step in STEPS)]

OWN = {
    "Rattle·task.specs.Types": "engine",
    "Rattle·task.specs.declared.Answer": "Answer",
    "Rattle·task.specs.declared.Limits": "Limits",
    "Rattle·task.specs.declared.Row": "Row",
    "Rattle·task.specs.declared.Step": "Step:Kind",
    "Rattle·task.specs.declared.StepAnswer": "StepAnswer",
    "Rattle·rules.specs.Memory": "memOf:memory",
    "Rattle·rules.specs.Begin": "begin:beginOf",
    "Rattle·rules.specs.Steps": "step:stepOf",
    "Rattle·rules.specs.Plans": "resultOf",
    "Rattle·replies.specs.Replies": "replyOf stepReplyOf",
    "Rattle·replies.specs.declared.Reply": "Reply",
    "Rattle·replies.specs.declared.StepReply": "StepReply",
    "Rattle·engine_export.proofs.Laws": "begin-replied step-replied",
    "Rattle·row_list.proofs.Params": PARAMS,
    "Rattle·row_list.proofs.Rules": RULES,
    "Rattle·ref_rules.proofs.Lists": "final slice Loan reads:read gives:give owned-of Lending lives shares all-tokens arguments values lending number "
    "slice-fits LimitsT WorkerT RowT AnswerT StepAnswerT worker-val limits-makes worker-makes limits-typed worker-typed answer-typed step-answer-typed",
    "Rattle·ref_export·proofs.proofs.Calls": "word worker-of worker-is ReplyT StepReplyT reply-makes step-reply-makes reply-typed step-reply-typed "
    "limits-engine-triple reply-of-triple step-reply-of-triple limits-made replies step-replies",
}


def after(mutable):
    """The lists at exit: those that are written, and the others as they were."""
    return " ".join(new(x) if x in mutable else now(x) for x in LISTS)


def last(x):
    """The list among the last values of the call."""
    return f"(zs{' .1' * (1 + LISTS.index(x))} .0)"


def script(call):
    answer = WORKER + call.by_worker
    limits, lent = answer + 1, answer + 3
    who = lent - 1 + 2 * len(call.mutable)
    w = Short(who + call.by_worker, "tokens", "owned")
    for x, i in SLOTS.items():
        w.passes(i, f"(slice-fits (m .{x}) .0)")
    for i, is_ in zip((P, K, WORKER), call.values("p-is", "k-is", "i-is")):
        w.passes(i, f"(tt, record {{ fits = {is_} .1 }})")
    w.step("pass0 !").move("owned")
    passed = [*LISTS, *call.values("p", "k", "i")]
    w.step("opens-owns ! (typesAt (fn.signature .params) (lives m)) (here .0 .3) (here .0 .4)", 1, "true", *reversed(passed))
    w.note("the engine's limits; the lists that are written are lent on").bind(f"limits-made mem run ! fm known-limits-engine {reads(w)}", "v lim e lim-is")
    w.lands(limits, "(limits-typed 𝓤 H A W lim _ lim-is .0)")
    given = lends(w, call.mutable, lent, SLOTS)
    if call.by_worker:
        w.assign(f"(agg ! {operands(w.read(WORKER))})", who, "(worker-typed 𝓤 H A W (worker-of i) _ (worker-is i i-is) .0)")
    w.joins("(owned-of loans)", "lists", *LISTS).move("tokens", "lists")
    by, to, args, result = call.core.dashed, "(to lim v)", "(args lim)", (call.answer, f"{call.answer}T")
    w.step(f"use2 W (raw ({by}-triple 𝓤 H A mem run .pre {to})) (asked lim v lim-is)", 2, "pre")
    operand = [w.read(limits), *(w.read(given.get(x, SLOTS[x])) for x in LISTS), *(w.read(i) for i in call.values(P, K, who))]
    says = f"(Said lim a {' '.join(map(last, call.mutable))})"
    called(w, by, to, operand, result, "(all-tokens m)", "(lives m)", args, says, ["limits", *LISTS], given)
    w.lands(answer, f"({call.word}answer-typed 𝓤 H A W a _ a-is .0)").note("the reply")
    w.bind(f"{call.word}replies mem run ! fm {call.replies.known} a u a-is {reads(w, answer)}", "x y replied y-is")
    w.lands(0, f"({call.word}reply-typed 𝓤 H A W y _ y-is .0)").leave()
    lists, longs = " ".join(map(last, call.mutable)), " ".join(map(long, call.mutable))
    return w.end(f"exits {lists} {longs} lim e a steps x y replied y-is", "tokens", *(f"final {x}" for x in call.mutable))


def asked(call):
    """What the call asks: the values are made, and the lists are joined between them."""
    asks = "chain (all-tokens m) ∷ chain (owned-of loans) ∷ []"
    s = Script("tokens", "lists").move("lists").step("splits ! (owned-of loans)", 1, "own", *reversed(LISTS))
    makes = "usize (Is usize) (uint-makes 𝓤 H A W w64)"
    values = [f"{makes} p _ p-is", f"{makes} k _ k-is", "WorkerT (Is WorkerT) (worker-makes 𝓤 H A) (worker-of i) _ (worker-is i i-is)"]
    for value in reversed(call.values(*values)):
        s.step(f"owned ! {value} $ fjoin !")
    for x in reversed(LISTS):
        s.join(x, "own", "own", "fjoin")
    s.step("owned ! LimitsT (Is LimitsT) (limits-makes 𝓤 H A) lim _ lim-is $ fjoin !").join("tokens", "own", "all").step("nothing !", 0, "none")
    s.move("all", "none")
    return define(
        f"asked : (lim : Limits) (v : Val) → Is LimitsT lim (v ∷ []) → ent 𝓤 (⋆ 𝓤 H A ({asks})) ({call.core.dashed}-triple 𝓤 H A mem run .pre (to lim v))",
        f"qed W ({asks}) ∵ {s.text}done !",
        2,
        "asked lim v lim-is",
    )


def number(i):
    """The machine value of a number after the lists."""
    return f"vint w{32 if i == 'i' else 64} {i}"


def arguments(call):
    """The numbers after the lists with their machine values, what is passed on of them, and what the walk's triple binds."""
    numbers = call.values("p", "k", "i")
    types = lambda of: " × (".join([*[of] * len(numbers), "Unit {0}"]) + ")" * len(numbers)
    words = [f"{number(i)} ∷ []" for i in numbers]
    passed = [*words[:2], *call.values("", "", "worker-val (worker-of i) ∷ []")[2:]]
    return [
        define(f"abbrev numbers : {types('ℕ')}", nest(numbers), 2),
        define(f"abbrev words : {types('List Val')}", nest(words), 2),
        define(f"abbrev passed : {types('List Val')}", nest(passed), 2),
        define(
            "abbrev here : walkOf 𝓤 H A fn.ended stayed (fn.clauses 𝓤 H A mem run) .Ghost",
            "((lives m, shares m, tt, arguments engine m numbers .1, values engine m words .1), tt)",
            2,
        ),
    ]


def callee(call):
    """What the call is lent, passed and asks, and what it says."""
    by, lists = call.core.dashed, " ".join(map(new, call.mutable))
    return [
        f"  -- what `{call.name}` is lent, passed and asks, and what it says\n" + loans(LISTS, call.mutable),
        define(f"abbrev args : Limits → Args {by}.signature (lives m)", f"arguments lim m {nest(call.values('p', 'k', 'worker-of i'))}", 2, "args lim"),
        define(
            f"abbrev to : Limits → Val → {by}-triple 𝓤 H A mem run .Ghost",
            "((lives m, shares m, tt, args lim, (v ∷ [], values lim m passed .1)), tt)",
            2,
            "to lim v",
        ),
        asked(call),
        define(
            f"abbrev Said : Limits → {call.answer} → {kinds(call.mutable[:-1])}List Row → Type 0",
            f"resultOf a (memory {after(call.mutable)}) ≡ {call.rule} (memory {now(*LISTS)})",
            2,
            f"Said lim a {lists}",
        ),
    ]


def call_exits(call):
    given = [
        ("lim e", "(lim : Limits) → lim ≡ engine"),
        ("a made", f"(a : {call.answer}) → Said lim a {' '.join(map(new, call.mutable))}"),
        ("x y replied y-is", f"(x : Val) (y : {call.reply}) → y ≡ {call.reply_of} a → Is {call.reply}T y (x ∷ [])"),
    ]
    law = f"{call.law} (memory {now(*LISTS)}) (memory {after(call.mutable)}) a y e made replied"
    owned = f"owned ! {call.reply}T (Is {call.reply}T) ({call.word}reply-makes 𝓤 H A) y _ y-is"
    return exits(given, call.mutable, [*LISTS, *call.values("p", "k", "i")], "x", "y", law, owned)


def walk(call):
    entered = f"({listed([*(f'slice (m .{x})' for x in LISTS), *map(number, call.values('p', 'k', 'i'))])})"
    return define(
        f"walk : ent 𝓤 (onEntry 𝓤 H A fn.signature (lives m) (shares m) (here .0 .3) (here .0 .4)) (WpFn 𝓤 H C Λ code.function {entered} {POST})",
        "qed W (chain (all-tokens m) ∷ ‵ (owns (typesAt (fn.signature .params) (lives m)) (here .0 .3) (here .0 .4)) ∷ []) ∵ "
        f"enter ! C Λ code.function {entered} _ $\n{script(call)}",
        4,
    )


def walk_arguments(call):
    """The lists, and the numbers after them, with what is known of each."""
    at = lambda name, i, end="": f"({name}{' .1' * i} .0{end})"
    rooms = " ".join(at("are", i, " .0 .1") for i in range(13))
    numbers = " ".join(at(name, i) for i in call.values(13, 14, 15) for name in ("a", "are"))
    return f"(lending κs qs (engine, a) {rooms}) {numbers}"


def write_call(call):
    kinds_of = params(call.mutable, *call.values("number", "number", "word"))[1:]
    f = Listed("ref_export", f"yolluvek_ref_{call.name}", 13, kinds_of, [Limits(), call.core, call.replies])
    known = lambda i: f"({i} : ℕ) ({i}-is : Is {'u32' if i == 'i' else 'usize'} {i} ({number(i)} ∷ []))"
    parts = [
        call.core.triple(),
        f.stayed(),
        f.module(f"(m : Lending) {' '.join(map(known, call.values('p', 'k', 'i')))}").rstrip("\n"),
        *arguments(call),
        *callee(call),
        call_exits(call),
        f.callees_module() + walk(call),
        f.handed_over(13, walk_arguments(call), asks=False),
    ]
    f.write(f"a walk of `yolluvek_ref_{call.name}`. The call is made at the engine's limits, and its answer turned into a reply.", parts, OWN)


def write():
    for call in CALLS:
        write_call(call)
