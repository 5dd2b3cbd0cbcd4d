"""The C interface: the prototypes that crates/capi_c gives rise to, and that include/kitchen.h declares just these.

All are texts here, so that a test can hand over a header that is wrong. Here `exports` is the code of capi_c.
"""
import pathlib
import re

import source
from run import demand, run

WARNINGS = ["-Wall", "-Wextra", "-Werror", "-pedantic"]
STRICT = [*WARNINGS, "-I", "include"]
NUMBERS = {**{f"{sign}{bits}": f"{'u' if sign == 'u' else ''}int{bits}_t" for sign in "ui" for bits in (8, 16, 32, 64)}, "usize": "size_t"}
EXPORTED = re.compile(r'#\[unsafe\(no_mangle\)\]\s*pub extern "C" fn (\w+)\(([^()]*)\)\s*->\s*(\w+)')
# A function of capi or of capi_c from its name on to its body: its parameters, its result and its contract.
SIGNATURE = r"fn (kitchen_\w+)\(([^()]*)\)\s*->\s*(\w+)(.*?)\n\{\n"
DECLARED = re.compile(r"^([a-z]\w*(?: \w+)*[ *]+)(\w+)\s*\(([^()]*)\)\s*;", re.M)


def in_c(name, kind):
    """The parameters in C for one of ours: a number is itself, an array a pointer, a slice a pointer and a length."""
    if kind in NUMBERS:
        return [f"{NUMBERS[kind]} {name}"]
    lent = re.fullmatch(r"&(mut )?\[(\w+)(?:; (\d+))?\]", kind)
    demand(lent and lent[2] in NUMBERS, f"capi_c has a parameter {name} of the type {kind}, which C cannot have")
    element = ("" if lent[1] else "const ") + NUMBERS[lent[2]]
    return [f"{element} {name}[{lent[3]}]"] if lent[3] else [f"{element} *{name}", f"size_t {name}_len"]


def parameters_of(text):
    """Pairs of a name and a type."""
    return [tuple(" ".join(part.split()) for part in parameter.split(":")) for parameter in text.split(",") if parameter.strip()]


def prototypes(exports):
    """The prototype of each function that capi_c has for C, by its name."""
    code = source.rattle(exports)
    found = EXPORTED.findall(code)
    form = '#[unsafe(no_mangle)] pub extern "C" fn NAME(..) -> ..'
    demand(found and len(found) == code.count("no_mangle") == code.count("extern"), f"capi_c has a function for C that is not `{form}`")
    made = {}
    for name, parameters, result in found:
        demand(result in NUMBERS, f"{name} of capi_c returns {result}, which C cannot have")
        made[name] = f"{NUMBERS[result]} {name}({', '.join(part for pair in parameters_of(parameters) for part in in_c(*pair)) or 'void'})"
    return made


def same_functions(capi, exports):
    """capi_c exports just the functions of capi whose names begin with `kitchen_`, with their parameters, results and contracts."""

    def functions(text, before):
        found = re.findall(rf"^{before}{SIGNATURE}", source.rattle(text), re.M | re.S)
        return {name: (parameters_of(given), result, " ".join(clauses.split())) for name, given, result, clauses in found}

    offered, exported = functions(capi, "pub "), functions(exports, 'pub extern "C" ')
    demand(offered and sorted(offered) == sorted(exported), f"capi offers {sorted(offered)}, and capi_c exports {sorted(exported)}")
    for name, signature in offered.items():
        demand(exported[name] == signature, f"{name} is {signature} in capi, and {exported[name]} in capi_c")
    return len(offered)


def declarations(header):
    """The declarations of the header by the function's name, each in one line."""
    found = [(name, " ".join(f"{result}{name}({parameters})".split())) for result, name, parameters in DECLARED.findall(source.rattle(header))]
    demand(len(dict(found)) == len(found), "the header declares a function twice")
    return dict(found)


def same_prototypes(header, exports):
    """The header declares each function of capi_c, with these types and names of its parameters, in this order, and no other."""
    declared, made = declarations(header), prototypes(exports)
    demand(sorted(declared) == sorted(made), f"the header declares {sorted(declared)}, capi_c has {sorted(made)}")
    for name, prototype in made.items():
        demand(declared[name] == prototype, f"the header declares {declared[name]}, and of capi_c comes {prototype}")
    return len(made)


def redeclared(exports):
    """A file of C that a compiler refuses if the header has another type for a function of capi_c. The types come before the header, so that nothing in it can change them."""
    made = prototypes(exports)
    lines = ["#include <stddef.h>", "#include <stdint.h>"]
    lines += ["typedef " + prototype.replace(f" {name}(", f" of_{name}(") + ";" for name, prototype in made.items()]
    lines += ['#include "kitchen.h"']
    for name in made:
        lines += [f"#ifdef {name}", f"#error {name} is a macro", "#endif", f"of_{name} *const the_{name} = {name};", f"extern of_{name} {name};"]
    return "\n".join([*lines, "typedef char a_length_has_64_bits[sizeof(size_t) == 8 ? 1 : -1];", ""])


def compiled(exports, folder, include="include"):
    """The header has the types of capi_c for a compiler, too."""
    path = pathlib.Path(folder) / "redeclared.c"
    path.write_text(redeclared(exports))
    run(["cc", "-std=c99", "-Wstrict-prototypes", *WARNINGS, "-I", str(include), "-fsyntax-only", str(path)])
