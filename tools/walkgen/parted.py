"""Walks with a branch or a loop.

Such a walk is cut in two: what comes after its first statements is a lemma of its own, over the places of the locals, with their types
as the code spells them. In one piece it would meet the kernel's step limit.
"""

from core import define, fill, listed, local
from short import Short

PARTED = {
    "mir.Syntax": "imm mut tyPtr tyInt tyBool tyUnit tyRef",
    "mir.Val": "vbool",
    "package.mir.Table": "spell",
    "base.Logic": "guardI",
    "base.Fml": "froom fdies fshr-bor fobor fauth",
    "prog.Wp": "Out Wp afterSeq afterBlock afterTurn atReturn",
    "types.Kit": "Sq atRet anyQ given learn",
    "types.Run": "un bin lit unit-lit store assigns-last first skips branches returns-within exec Below again loops blocks stays leaves-loop",
}


class Parted(Short):
    """The script of a body whose locals are of these types, by their names (see `spelt`). Its statements are counted, since the code's
    pieces are named by that: `s-n` is statement n, `t-n` the code from there."""

    def __init__(self, types, *rest):
        super().__init__(len(types), *rest)
        self.types, self.statements, self.cut_at = types, 0, None
        self.places = " ".join(map(local, range(len(types))))

    def assign(self, *args):
        self.statements += 1
        return super().assign(*args)

    def lands(self, *args):
        self.statements += 1
        return super().lands(*args)

    def cut(self, lemma):
        """The first part, which ends in the lemma; the second goes on from the same context."""
        self.step("first !").cut_at = self.statements + 1
        return self.close(f"{lemma} {self.places}"), self.resumed()

    def goes_on(self, f):
        """From what is to be shown after the statement at which the walk is cut, to the code that follows."""
        return self.step(f"exec ! {f.C} {f.L} En pieces.t-{self.cut_at + 1} (atRet En Exit)")

    def standing(self, values):
        """The locals as they stand, a line each, the last first: with its value, or room."""
        assert set(values) == self.held, (values, self.held)
        lines = []
        for i in reversed(range(self.locals)):
            type, at = self.types[i], local(i)
            cell = f"fat fullShare {type} {at} 0 {values[i]}" if i in values else f"froom {type} {at} 0"
            lines.append(f"‵ ({cell}) ∷ ‵ (fdies {type} {at}) ∷")
        return "\n".join(lines)

    def forgets(self, *locals):
        """What these hold is forgotten."""
        for i in locals:
            self.step(f"forget ! {self.at(f'_{i}')} refl")
            self.held.remove(i)
        return self

    def rewrite(self, i, kind, value, by):
        """The value of local i is rewritten: `value`, over z of this kind."""
        return self.step(f"rewrite ! {self.at(f'_{i}')} (λ (z : {kind}). ‵ (fat fullShare {self.types[i]} {local(i)} 0 ({value}))) {by} refl")


def spelt(types):
    """The types of the locals, pairs of a name and a type, as the code spells them."""
    return "-- the locals' types, as the code spells them\n" + "\n".join(
        define(f"abbrev {name} : Ty", f"spell pieces.table {type}") for name, type in dict(types).items()
    )


def section(f, w, more, parts):
    """The section of the second part, over the places of the locals and `more` parameters: what is to be shown after the statement at
    which the walk is cut, and these parts."""
    rest = f"afterSeq 𝓤 H (Wp 𝓤 H {f.C} {f.L} En pieces.t-{w.cut_at + 1} (atReturn 𝓤 H En Exit)) (atReturn 𝓤 H En Exit)"
    parts = [
        define("abbrev En : Env 𝓤 H", listed(f"({type}, {local(i)})" for i, type in enumerate(w.types)), 6),
        define("abbrev Then : Out → SProp 𝓤", rest, 6),
        *parts,
    ]
    return "    " + fill(f"module _ {more}({w.places} : ℕ) where", 8).strip() + "\n" + "\n".join(parts)
