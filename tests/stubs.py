"""Bodies that are proved at once, for functions whose own bodies aren't asked about: a caller is proved from what a function ensures, so
a wrong body is judged beside stubs as it is beside the bodies themselves. A stub calls a foreign function that ensures what is never
true, so whatever a function ensures follows. Only the copies that mutants.py makes of a crate have them: `rt ci` refuses foreign functions."""
import os
import re
import shutil

# The name of a function that begins on a line, its indentation in front.
HEAD = re.compile(r"( *)(?:pub(?:\([a-z]+\))? )?(?:const )?fn (\w+)")
BODY = "{ crate::stubbed::never(); unreachable!() }"
NEVER = """//! What ensures the impossible.
ghost use Rattle.std.specs.Prelude.{◌<◌};

unsafe extern "C" {
    pub(crate) safe fn never()
        ensures { 0 < 0 };
}
"""
PROOFS = {"Answers.antt", "Invariants.antt", "Proof.antt"}


class Function:
    """A function with a body in a laid-out text: its name, where its attributes, its head and its body begin, where that ends, and whether
    it stands in the `impl` of a trait."""

    def __init__(self, name, places, is_of_a_trait):
        self.name, self.is_of_a_trait = name, is_of_a_trait
        self.attributes, self.head, self.body, self.end = places


def functions_of(text):
    """Returns the functions that have bodies in a text that `rt fmt` laid out: a body ends at the first line that is its function's
    indentation and a closing brace."""
    lines = text.splitlines(True)
    at = [0]
    for line in lines:
        at.append(at[-1] + len(line))
    found, here, is_of_a_trait = [], 0, False
    while here < len(lines):
        if lines[here].startswith(("impl", "pub trait", "trait")):
            is_of_a_trait = " for " in lines[here] or "trait " in lines[here]
        head = HEAD.match(lines[here])
        begins = head and body_line(lines, here, head[1])
        if not begins:
            here += 1
            continue
        line, column, is_closed = begins
        last = line if is_closed else next(it for it in range(line + 1, len(lines)) if lines[it].rstrip("\n") == head[1] + "}")
        above = here
        while lines[above - 1].strip().startswith("#["):
            above -= 1
        places = at[above], at[here], at[line] + column, at[last] + len(lines[last].rstrip("\n"))
        found.append(Function(head[2], places, bool(head[1]) and is_of_a_trait))
        here = last + 1
    return found


def body_line(lines, first, indent):
    """Returns the line and the column at which the body of a function begins, and whether it ends there too; None where it has none."""
    depth = 0
    for here in range(first, len(lines)):
        line = lines[here].rstrip("\n")
        if depth == 0:
            if line in (indent + "{", indent + "{}"):
                return here, len(indent), line.endswith("}")
            if (here == first or line.startswith(indent + ")")) and line.endswith((" {", "{}")):
                return here, line.rindex("{"), line.endswith("}")
        depth += line.count("{") - line.count("}")
        if depth == 0 and line.endswith(";"):
            return None
    return None


def touched_in(text, spans):
    """Returns the names of the functions of a text that one of these spans touches."""
    return {it.name for it in functions_of(text) if any(start < it.end and it.attributes < end for start, end, _ in spans)}


def stubs_in(text, spared):
    """Returns what puts stubs in the place of the text's bodies, as (start, end, new), but for functions of these names."""
    puts = []
    for it in functions_of(text):
        if it.name in spared:
            continue
        # what a proof is to use reads lemmas, which take long, and a stub calls nothing that leads back to it
        kept = [line for line in text[it.attributes : it.head].splitlines(True) if not line.strip().startswith(("#[tactic(", "#[cycle("))]
        puts += [(it.attributes, it.head, "".join(kept)), (it.body, it.end, BODY)]
    return puts


def twin_in(text, function, spans, ending):
    """Returns what puts a copy of a function behind it, as (start, end, new): under its name with this ending, with these spans replaced."""
    twin, indent = text[function.attributes : function.end], HEAD.match(text, function.head)[1]
    for start, end, new in sorted(spans, reverse=True):
        twin = twin[: start - function.attributes] + new + twin[end - function.attributes :]
    return function.end, function.end, "\n\n" + re.sub(rf"^({indent}\S.*?\bfn {function.name}|{indent}fn {function.name})\b", rf"\g<1>{ending}", twin, count=1, flags=re.M)


def copy_proof(room, crate, function, ending):
    """Copies the proof of a function for its copy under the name with this ending."""
    path = function.replace("::", "/")
    if not ending or not os.path.isdir(f"{room}/proofs/{path}"):
        return
    shutil.copytree(f"{room}/proofs/{path}", f"{room}/proofs/{path}{ending}")
    old = f"Rattle.{crate}.proofs.{path.replace('/', '.')}"
    for name in os.listdir(f"{room}/proofs/{path}{ending}"):
        file = f"{room}/proofs/{path}{ending}/{name}"
        if os.path.isfile(file):
            with open(file, encoding="utf-8") as lent:
                text = re.sub(rf"{re.escape(old)}\b", old + ending, lent.read())
            with open(file, "w", encoding="utf-8") as lent:
                lent.write(text)


def finish(room, spared):
    """Adds to a copy of a crate what its stubs call, and takes the proofs of the functions away that have them."""
    with open(f"{room}/src/stubbed.rt", "w", encoding="utf-8") as file:
        file.write(NEVER)
    with open(f"{room}/src/lib.rt", "a", encoding="utf-8") as file:
        file.write("\nmod stubbed;\n")
    for folder, _, files in os.walk(f"{room}/proofs"):
        names = {it.lstrip("+") for it in os.path.relpath(folder, f"{room}/proofs").split("/")}
        if not names & spared:
            for file in PROOFS.intersection(files):
                os.remove(f"{folder}/{file}")
