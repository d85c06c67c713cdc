#!/usr/bin/env python3
"""Each public function of the codec promises exactly what its name in specs/Promises.antt says, and the name allows one answer.

Of each `pub fn` of the crates from `run` to `oakentwirl`, by its signature alone: it has no `requires`; its one `ensures` is its promise's
name, with every argument at entry, the result, and every lent buffer at exit (the promise of a method of a struct that holds
what is lent is named after both, and is of the struct's fields); the crate proves `Once` or `OnceBoth` of that name. Where the
result is a part of what is lent, its promise is of what it holds and of where it lies; of a table that is always there, of what it holds. An
`impl TryFrom` or `From` gives the promise that is named after the type that it makes (`FormOfPromise`), and so by its name alone. A function
for C promises what the function that it calls promises. What the names say is proved by the check, not here.
"""

import re
import sys
from pathlib import Path

ROOT = Path(__file__).resolve().parent.parent
LAST = "oakentwirl"

START = re.compile(r"^( *)pub (?:extern \"C\" )?fn (\w+)(?:<'\w+>)?\(")
LENT = re.compile(r"&(?:'\w+ )?")
STATIC = re.compile(r"&'static\b")
IMPL = re.compile(r"^impl(?:<[^>]*>)? (\w+)(?:<[^>]*>)? \{$")
CONVERSION = re.compile(r"^( *)impl\b[^{]*?\b((?:Try)?From)<[^{]*>\s+for\s+(?:\w+::)*(\w+)[^{]*\{(.*?)^\1\}$", re.M | re.S)
LENT_TO_WRITE = re.compile(LENT.pattern + r"mut\b")
# a call, of a function by its path or of a method
CALL = re.compile(r"\s*(?:[\w:]+::|\w+\.)(\w+)\([^()]*\)\s*")


def lent_fields(text, struct):
    """The fields of a struct, where one of them is lent; else none."""
    body = re.search(rf"^pub struct {struct}<[^>]*> \{{\n(.*?)^\}}$", text, re.M | re.S)
    return re.findall(r"^    pub (\w+): (.*),$", body.group(1), re.M) if body else []


def functions(text):
    """Name, parameters, result, clauses and body of each public function: the formatter puts these on lines of their own. A method of a struct
    that holds what is lent has the struct before its name, and the struct's fields as parameters."""
    lines = iter(text.splitlines())
    struct = ""
    for line in lines:
        if line == "}":
            struct = ""
        opened = IMPL.match(line)
        if opened:
            struct = opened.group(1)
        start = START.match(line)
        if not start:
            continue
        indent = start.group(1)
        head, clauses, body = [line], [], []
        while not re.search(r"\)(?: -> .+)?$", head[-1]):
            head.append(next(lines))
        for line in lines:
            if line == indent + "{":
                break
            clauses.append(line)
        for line in lines:
            if line == indent + "}":
                break
            body.append(line)
        given, _, result = " ".join(head)[start.end():].partition(")")
        name, fields = start.group(2), lent_fields(text, struct)
        if fields and re.match(r"\s*self\b", given):
            name = f"{name}_{struct}".lower() if name.startswith("put") else f"{struct}_{name}".lower()
            given = ", ".join([f"self.entry.{field}: {kind}" for field, kind in fields] + [given.partition(",")[2].strip()])
        yield name, given, result.removeprefix(" -> "), " ".join(" ".join(clauses).split()), " ".join(body)


def conversions(text):
    """Name of each `impl TryFrom` and `From`, its promise, what it gives, and what it has to give."""
    for _, trait, made, body in CONVERSION.findall(text):
        member = "try_from_gives" if trait == "TryFrom" else "from_gives"
        promise = f"{made}OfPromise"
        given = re.search(rf"^ *(ghost {member} = .*?;)$", body, re.M | re.S)
        yield f"{trait} for {made}", promise, given.group(1) if given else f"no {member}", f"ghost {member} = {{ {promise} }};"


def codec_crates():
    for line in (ROOT / "crates.txt").read_text().splitlines():
        name = line.split(":")[0].split()[0]
        yield name
        if name == LAST:
            return


def promise_of(function):
    return "".join(part.capitalize() for part in function.split("_")) + "Promise"


def parameters(signature):
    for part in re.split(r",\s*(?![^\[]*\])", signature.strip().rstrip(",")):
        if part.strip() == "&self":
            yield "self", "&Self"
        elif part:
            name, _, kind = part.partition(":")
            yield name.strip(), kind.strip()


def expected(promise, signature, result, body):
    """The whole `ensures` that a function of this signature has. For C a truth is a number: the callee is lent whether it is not 0."""
    given, after = [], []
    is_static = STATIC.match(result)
    is_part = LENT.match(result) and not is_static
    for name, kind in parameters(signature):
        truth = f"(not (eqb {name} 0))" if re.search(rf"\b{re.escape(name)} != 0[,)]", body) else name
        at_entry = f"{name}.entry" if is_part else f"{name}.old" if LENT_TO_WRITE.match(kind) else f"{name}.now"
        given.append(at_entry if LENT.match(kind) else truth)
        if LENT_TO_WRITE.match(kind):
            after.append(f"{name}.new")
    answer = "result.now" if is_static else "result.now result.ref_ptr" if is_part else "result"
    return f"ensures {{ {' '.join([promise, *given, answer, *after])} }}"


def allows_one(promise, proofs):
    return re.search(rf"\bOnce(Both)? \(?{promise}\b", proofs)


def faults(crate):
    proofs = "".join(p.read_text() for p in sorted((ROOT / "crates" / crate / "proofs").glob("*.antt")))
    for source in sorted((ROOT / "crates" / crate / "src").glob("*.rt")):
        for conversion, promise, given, gives in conversions(source.read_text()):
            if given != gives:
                yield f"{crate}: {conversion}: {given}\n    and not {gives}"
            elif not allows_one(promise, proofs):
                yield f"{crate}: {conversion}: nothing says that {promise} allows one answer"
            else:
                yield None
        for function, signature, result, clauses, body in functions(source.read_text()):
            called = CALL.fullmatch(body) if crate == LAST else None
            promise = promise_of(called.group(1) if called else function)
            ensures = expected(promise, signature, result, body if called else "")
            if clauses != ensures:
                yield f"{crate}::{function}: {clauses or 'no ensures'}\n    and not {ensures}"
            elif crate != LAST and not allows_one(promise, proofs):
                yield f"{crate}::{function}: nothing says that {promise} allows one answer"
            else:
                yield None


def main():
    results = [fault for crate in codec_crates() for fault in faults(crate)]
    wrong = [fault for fault in results if fault]
    for fault in wrong:
        print(fault)
    print(f"promises: {len(results) - len(wrong)} of {len(results)} public functions cite a name that allows one answer")
    return 1 if wrong or not results else 0


if __name__ == "__main__":
    sys.exit(main())
