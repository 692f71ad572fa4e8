#!/usr/bin/env python3
"""fortran_module.py HEADER MODULE: holds the Fortran module of the examples to the library's header, which alone says what the calls are.

Both must have the same constants with the same values, the same structs with the same members, and the same calls with the same parameters in the
same order: each of the header's type, by value, only read, or written. A line for each that differs; the last is `N passed, M failed`.
"""
import re
import sys

KINDS = {"int64_t": "integer(c_int64_t)", "uint64_t": "integer(c_int64_t)", "uint8_t": "integer(c_int8_t)", "size_t": "integer(c_size_t)"}


def kind_of(c_type):
    return KINDS.get(c_type, "type(%s)" % c_type)


def in_fortran(declaration):
    """A C parameter as (name, how the module must declare it)."""
    const, c_type, star, name = re.fullmatch(r"(const )?(\w+) (\*?)(\w+)", declaration).groups()
    passed = "value" if not star else "intent(in)" if const else "intent(inout)"
    return name, "%s, %s%s" % (kind_of(c_type), passed, " (*)" if star else "")


def of_header(text):
    """Constants, structs and calls, by name."""
    text = re.sub(r"/\*.*?\*/", "", text, flags=re.S)
    found = {name.lower(): value.strip().strip('"') for name, value in re.findall(r"^#define (FENNHOP_\w+) +(\S.*)$", text, re.M)}
    for body, name in re.findall(r"typedef struct \w+ \{(.*?)\} (\w+);", text, re.S):
        members = []
        for c_type, names in re.findall(r"(\w+) ([^;]+);", body):
            members += [(member.strip(), kind_of(c_type)) for member in names.split(",")]
        found[name] = members
    for c_type, name, parameters in re.findall(r"^(\w+) (\w+)\(([^)]*)\);", text, re.M):
        found[name] = [in_fortran(" ".join(p.split())) for p in parameters.split(",")] + [("returned", kind_of(c_type))]
    for name in re.findall(r"\bfennhop_\w+(?= *\()", text):
        found.setdefault(name, "a call of a form that is not known here")
    return found


def declared(lines):
    """What `KIND, ATTRIBUTE :: NAME, NAME(*)` says of each name, in order."""
    found = []
    for kind, names in re.findall(r"^ *((?:integer|type)\(\w+\)(?:, [\w()]+)?) :: (.*)$", lines, re.M):
        for name, array in re.findall(r"(\w+)(\(\*\))?", names):
            found.append((name, kind + (" " + array if array else "")))
    return found


def of_module(text):
    """The same of the module. A call has its C name where it is bind(c) with no name of its own."""
    text = re.sub(r" *!.*", "", text)
    text = re.sub(r" *&\n *", " ", text)
    found = {}
    for name, value in re.findall(r"parameter :: (\w+) = (.*)$", text, re.M):
        found[name] = value.strip().strip("'")
    for name, body in re.findall(r"^ *type, bind\(c\) :: (\w+)\n(.*?)end type", text, re.M | re.S):
        found[name] = declared(body)
    call = r"^ *function (\w+)\(([^)]*)\) +bind\(c\) result\((\w+)\)\n(.*?)end function"
    for name, parameters, result, body in re.findall(call, text, re.M | re.S):
        kinds = dict(declared(body))
        parameters = [p.strip() for p in parameters.split(",")]
        found[name] = [(p, kinds.get(p, "undeclared")) for p in parameters] + [("returned", kinds.get(result, "undeclared"))]
    return found


def main():
    if len(sys.argv) != 3:
        sys.exit(__doc__)
    with open(sys.argv[1]) as header, open(sys.argv[2]) as module:
        header, module = of_header(header.read()), of_module(module.read())
    names = sorted(header.keys() | module.keys())
    differing = [name for name in names if header.get(name) != module.get(name)]
    for name in differing:
        print("%s: the header has %s, the module %s" % (name, header.get(name), module.get(name)))
    print("%d passed, %d failed" % (len(names) - len(differing), len(differing)))
    return 1 if differing or not names else 0


if __name__ == "__main__":
    sys.exit(main())
