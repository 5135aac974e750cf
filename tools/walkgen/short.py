"""Walks by the rules of crates/row_list/proofs: Rules.antt (an operand in one word, chains at once) and Params.antt (kinds of parameters).

The names of the program logic that they use come from Words.antt there, which passes them on and is written here.
"""

from core import LIBRARY, Function, Walk, define, listed, operands

UNFOLDED = "tablesOf"  # a walk unfolds it, so it is not passed on

# Further names, for what is written by hand beside the walks.
MORE = {
    "mir.Syntax": "Ty Name Place Opd:Operand Body seq call",
    "base.Logic": "ex comm∗ emp∗",
    "base.Fml": "Fml",
    "prog.Wp": "Env",
    "prog.Model": "Model",
    "contract.Monad": "factI fact-use",
    "contract.Running": "GhostRules Running",
    "types.Kit": "Seq Step step Goal Post runs lands",
    "types.Run": "Opds",
    "denote.RattleType": "RattleType Denots",
    "denote.Laws": "Ises Tells Makes Typed owns-make",
    "denote.Slice": "ShrSlice",
}

RULES = "chain spread fchain splits joins fjoins opens-owns turns free free-room at part target"
PARAMS = "Param value reads gives stays spells told go"


class Short(Walk):
    """The same walk in fewer words."""

    def read(self, i, field=None):
        return f"(at ! {self.at(f'_{i}')} refl)" if field is None else f"(part ! {self.at(f'_{i}')} refl refl refl)"

    def reborrow(self, slice, pointer, to, typed):
        self.assign(f"(target ! {self.at(f'_{slice}')} refl refl refl refl)", pointer, "(tt, tt)")
        return self.assign(f"(agg ! {operands(self.read(pointer), self.read(slice, 1))})", to, typed)

    def splits(self, label, formulas, *parts):
        """A chain taken apart; its empty end is left as `true`."""
        return self.move(label).step(f"splits ! {formulas}", 1, "true", *reversed(parts))

    def joins(self, formulas, whole, *parts, rule="joins"):
        return self.move("true", *reversed(parts)).step(f"{rule} ! {formulas}", 1 + len(parts), whole)

    def leave(self, returns="returns !"):
        """The same. The context is turned first, so that the local that is freed next stands at its head: what is left need not be written anew."""
        self.step(f"{returns} (look ! {self.at('_0')} refl)").move(*self.context[self.at("d_0") + 1 :]).step("turns !")
        self.context.reverse()
        for i in range(self.locals):
            assert self.context[:2] == [f"d_{i}", f"_{i}"], self.context
            self.step("free !" if i in self.held else "free-room !", 2)
        return self.step("free0 !")


def words():
    """The names of each module, an alias as `name:alias`; those of borrows of single records are left out."""
    modules = [module for module in {**LIBRARY, **MORE} if module not in ("types.SemTy", "denote.Memory", "denote.Struct.Steps")]
    named = {module: f"{LIBRARY.get(module, '')} {MORE.get(module, '')}".split() for module in modules}
    named["contract.Running"].remove(UNFOLDED)
    return named


def library(crate):
    """Where the names come from, `row_list` or, of its own, `row_list·proofs`."""
    return {"contract.Running": UNFOLDED, f"Rattle·{crate}.proofs.Words": " ".join(name.split(":")[-1] for names in words().values() for name in names)}


def write():
    lines = ["-- written by tools/walkgen: the names of the program logic that walks use, passed on."]
    for module, names in words().items():
        named = [" as ".join(name.split(":")) for name in names]
        while named:
            n = len(named)
            while len(f"pub use {module}.{{{', '.join(named[:n])}}}") > 150:
                n -= 1
            lines.append(f"pub use {module}.{{{', '.join(named[:n])}}}")
            named = named[n:]
    with open("crates/row_list/proofs/Words.antt", "w", encoding="utf-8") as file:
        file.write("\n".join(lines) + "\n")


class Listed(Function):
    """A function whose parameters are a list of `Param`, in the words of Params.antt."""

    library = library("row_list")

    def __init__(self, crate, name, lifetimes, params, callees):
        super().__init__(crate, name, params, callees)
        self.lifetimes = lifetimes

    def stayed(self):
        params = define(f"abbrev params : List (Param {self.lifetimes})", listed(self.params))
        return params + "\n" + define("abbrev stayed : Stays (fn.ended .signature .params) (fn.ended .kept)", f"stays {self.lifetimes} params")

    def spelt(self):
        return f"(spells {self.lifetimes} params) (told {self.lifetimes} params)"

    def goes(self, lifetimes):
        return f"(go {lifetimes} 𝓤 H A W params)"
