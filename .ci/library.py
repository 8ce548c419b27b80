#!/usr/bin/env python3
"""What a package finds, as docs/LIBRARY.md: printed from the permits and the places of ses_lockdown, the paths of js_text, the text of the
prelude (ses_prelude) and the names that policies know (policy_globals).

    .ci/library.py            writes docs/LIBRARY.md
    .ci/library.py --check    ends with status 1 where the file differs, and tells the first difference
    .ci/library.py --print    prints it

Two tables stand here and nowhere else: what ECMA-262 has (`STANDARD`: what of it no permit has is listed as missing), and in what a function
departs from it (`NOTES`, each at the path of a common object).
"""
import os
import re
import sys

sys.dont_write_bytecode = True
from printed_page import serve

TOP = os.path.dirname(os.path.dirname(os.path.abspath(__file__)))

# The names of the global object and the properties of the intrinsics, in ECMA-262, 15th edition (June 2024), without its Annex B.
STANDARD = {
    "globalThis": "AggregateError Array ArrayBuffer Atomics BigInt BigInt64Array BigUint64Array Boolean DataView Date Error EvalError"
    " FinalizationRegistry Float32Array Float64Array Function Infinity Int16Array Int32Array Int8Array JSON Map Math NaN Number Object Promise Proxy"
    " RangeError ReferenceError Reflect RegExp Set SharedArrayBuffer String Symbol SyntaxError TypeError URIError Uint16Array Uint32Array Uint8Array"
    " Uint8ClampedArray WeakMap WeakRef WeakSet decodeURI decodeURIComponent encodeURI encodeURIComponent eval globalThis isFinite isNaN parseFloat"
    " parseInt undefined",
    "Array": "from isArray of prototype [Symbol.species]",
    "Array.prototype": "at concat constructor copyWithin entries every fill filter find findIndex findLast findLastIndex flat flatMap forEach"
    " includes indexOf join keys lastIndexOf map pop push reduce reduceRight reverse shift slice some sort splice toLocaleString toReversed toSorted"
    " toSpliced toString unshift values with [Symbol.iterator] [Symbol.unscopables]",
    "Boolean": "prototype",
    "Boolean.prototype": "constructor toString valueOf",
    "Error": "prototype",
    "Error.prototype": "constructor message name toString",
    "Function": "prototype",
    "Function.prototype": "apply bind call constructor toString [Symbol.hasInstance]",
    "JSON": "parse stringify [Symbol.toStringTag]",
    "Map": "groupBy prototype [Symbol.species]",
    "Map.prototype": "clear constructor delete entries forEach get has keys set size values [Symbol.iterator] [Symbol.toStringTag]",
    "Math": "E LN10 LN2 LOG10E LOG2E PI SQRT1_2 SQRT2 abs acos acosh asin asinh atan atan2 atanh cbrt ceil clz32 cos cosh exp expm1 floor fround"
    " hypot imul log log10 log1p log2 max min pow random round sign sin sinh sqrt tan tanh trunc [Symbol.toStringTag]",
    "Number": "EPSILON MAX_SAFE_INTEGER MAX_VALUE MIN_SAFE_INTEGER MIN_VALUE NEGATIVE_INFINITY NaN POSITIVE_INFINITY isFinite isInteger isNaN"
    " isSafeInteger parseFloat parseInt prototype",
    "Number.prototype": "constructor toExponential toFixed toLocaleString toPrecision toString valueOf",
    "Object": "assign create defineProperties defineProperty entries freeze fromEntries getOwnPropertyDescriptor getOwnPropertyDescriptors"
    " getOwnPropertyNames getOwnPropertySymbols getPrototypeOf groupBy hasOwn is isExtensible isFrozen isSealed keys preventExtensions prototype seal"
    " setPrototypeOf values",
    "Object.prototype": "constructor hasOwnProperty isPrototypeOf propertyIsEnumerable toLocaleString toString valueOf",
    "Proxy": "revocable",
    "RangeError": "prototype",
    "RangeError.prototype": "constructor message name",
    "ReferenceError": "prototype",
    "ReferenceError.prototype": "constructor message name",
    "Reflect": "apply construct defineProperty deleteProperty get getOwnPropertyDescriptor getPrototypeOf has isExtensible ownKeys"
    " preventExtensions set setPrototypeOf [Symbol.toStringTag]",
    "Set": "prototype [Symbol.species]",
    "Set.prototype": "add clear constructor delete entries forEach has keys size values [Symbol.iterator] [Symbol.toStringTag]",
    "String": "fromCharCode fromCodePoint prototype raw",
    "String.prototype": "at charAt charCodeAt codePointAt concat constructor endsWith includes indexOf isWellFormed lastIndexOf localeCompare match"
    " matchAll normalize padEnd padStart repeat replace replaceAll search slice split startsWith substring toLocaleLowerCase toLocaleUpperCase"
    " toLowerCase toString toUpperCase toWellFormed trim trimEnd trimStart valueOf [Symbol.iterator]",
    "Symbol": "asyncIterator for hasInstance isConcatSpreadable iterator keyFor match matchAll prototype replace search species split toPrimitive"
    " toStringTag unscopables",
    "Symbol.prototype": "constructor description toString valueOf [Symbol.toPrimitive] [Symbol.toStringTag]",
    "SyntaxError": "prototype",
    "SyntaxError.prototype": "constructor message name",
    "TypeError": "prototype",
    "TypeError.prototype": "constructor message name",
    "WeakMap": "prototype",
    "WeakMap.prototype": "constructor delete get has set [Symbol.toStringTag]",
}
# (those that each error's prototype inherits here, and has of its own there)
INHERITED = {f"{it}.prototype": {"message"} for it in ("RangeError", "ReferenceError", "SyntaxError", "TypeError")}

NOTES = {
    "Array.from": "no `this` for the function",
    "Array.prototype.concat": "spreads arrays alone",
    "Array.prototype.includes": "no place to begin at",
    "Array.prototype.sort": "by the order of texts; with a comparator a TypeError `unsupported`; undefined is sorted as its text",
    "Array.prototype.splice": "an undefined count is all that follows",
    "Array.prototype.reduce": "without items and a first value a TypeError `empty`",
    "Boolean": "not by `new`: TypeError `unsupported`",
    "Compartment": "the name is there; `new Compartment()` is a TypeError `unsupported` still",
    "Error": "a message alone; no `cause`, no stack",
    "Function": "evaluates nothing: TypeError `no evaluation`",
    "Function.prototype.toString": "one constant text",
    "JSON.parse": "no reviver; a number must be a safe integer; SyntaxError `bad JSON`",
    "JSON.stringify": "a replacer is a TypeError `unsupported`, a cycle one of the text `cyclic`; `toJSON` is not called",
    "Math.floor": "the number itself",
    "Math.max": "without arguments a TypeError `empty`",
    "Math.min": "without arguments a TypeError `empty`",
    "Math.trunc": "the number itself",
    "Number": "not by `new`: TypeError `unsupported`",
    "Number.isInteger": "whether it is a number",
    "Number.isSafeInteger": "whether it is a number",
    "Number.prototype.toString": "decimal alone",
    "Object": "of a text, a number, a truth value or a symbol a TypeError `cannot convert`: there are no wrapper objects",
    "Object.create": "no second argument",
    "Object.is": "as `===`, since there is no NaN and one zero",
    "Object.prototype.toString": "by the object's class alone",
    "String": "not by `new`: TypeError `unsupported`",
    "String.prototype.charCodeAt": "past the end it ends the run (`Number`), for want of NaN",
    "String.prototype.endsWith": "no place to end at",
    "String.prototype.includes": "no place to begin at",
    "String.prototype.split": "no limit; a text parts it, never an expression",
    "String.prototype.startsWith": "no place to begin at",
    "String.prototype.toLowerCase": "ASCII letters alone",
    "String.prototype.toUpperCase": "ASCII letters alone",
    "Symbol": "no description",
    "WeakMap": "no entries to begin with; keys are objects",
    "harden": "SES: freezes an object and all that it leads to, and gives it",
    "parseInt": "decimal alone, no radix; without a digit it ends the run (`Number`), for want of NaN",
}


def text_of(path):
    with open(f"{TOP}/{path}", encoding="utf-8") as it:
        return it.read()


def texts_in(source, start):
    """Returns the texts of the table that begins there."""
    return re.findall(r'"([^"]*)"', source[source.index(start) :].partition("];")[0].partition("= [")[2])


def paths():
    return texts_in(text_of("crates/js_text/src/common.rt"), "static COMMON_PATHS")


def parameters():
    """Returns the parameters of each function of the prelude, by its path."""
    found = {}
    for name, rest in re.findall(r"^function ([\w$]+)(\(.*)$", text_of("crates/ses_prelude/src/text.rt").replace('r#"', "\n"), re.M):
        depth = 0
        for at, c in enumerate(rest):
            depth += (c == "(") - (c == ")")
            if depth == 0:
                break
        *above, last = name.split("_")
        if name.startswith("_"):
            continue
        path = ".".join([*above, last])
        if last.startswith("get$"):
            path = "get " + ".".join([*above, last[4:]])
        elif last == "iterator$":
            path = ".".join(above) + "[Symbol.iterator]"
        found[path] = rest[1:at]
    return found


def permits(known):
    """Returns the properties of each common object in order: the key, what stands there, and whether lockdown makes an accessor of it."""
    found = {}
    source = text_of("crates/ses_lockdown/src/permits.rt").partition("= [")[2]
    row = re.compile(r'\(\s*At\((\d+)\),\s*(Named|Iterator),\s*"([^"]*)",\s*(\w+)(?:\((-?[\d_]+)\))?,\s*(Stays|Accessor)')
    for holder, sort, key, what, number, override in row.findall(source):
        number = int(number) if number else None
        place = known[number] if what in ("Object", "Tamed", "NameOf", "Read") else None
        found.setdefault(known[int(holder)], []).append((key if sort == "Named" else "[Symbol.iterator]", what, place, number, override))
    return found


def kinds():
    """Returns whether each common object is an ordinary object, a function or a constructor, in the order of the places."""
    return re.findall(r"\((Ordinary|Function|Constructor),", text_of("crates/ses_lockdown/src/places.rt").partition("= [")[2])


def host():
    """Returns the objects of the host, each with its members."""
    source = text_of("crates/policy_globals/src/host.rt")
    members = {name: re.findall(r'"(\w+)"', row) for name, row in re.findall(r"(\w+)_MEMBERS: .* = \[(.*)\];", source)}
    return {name.lower(): found for name, found in members.items()}


def said(key, what, place, number, params):
    if what in ("Object", "Tamed"):
        if place in params:
            return f"`{key}({params[place]})`" if place.endswith(f".{key}") else f"`{place}`"
        return f"`{place}`"
    if what == "Read":
        return "a getter"
    if what == "NameOf":
        return f'`"{place}"`'
    if what == "Empty":
        return '`""`'
    return f"`{number}`" if what == "Integer" else "the symbol"


HEAD = """# What a package finds

Every name, object, method and property that the code of a package finds when it begins, and what ECMA-262 has and this has not. \
`.ci/library.py` prints this page from the permits (`crates/ses_lockdown/src/permits.rt`), the text of the prelude \
(`crates/ses_prelude/src/text.rt`) and the names that policies know, and `.ci/run` compares it. What syntax there is stands in \
`LANGUAGE.md`, and how a policy grants what is not here in `POLICIES.md`.

Three things hold of all of it:

- **All packages share these objects, and nobody can change them.** No property of one can be written, added, removed or redefined: an \
attempt throws a TypeError. Objects of one's own may have a property of the same name: the properties of `Object.prototype`, \
`Function.prototype` and the prototypes of errors are accessors, so that an assignment to an object that inherits one makes a property of its own.
- **Numbers are safe integers.** What ECMA-262 gives as a fraction, NaN, an infinity or an integer past 2^53 - 1 ends the run with `Number` \
(status 5); so does a `NaN` or an `Infinity` that is evaluated.
- **A function behaves as its text in the prelude.** Where that departs from ECMA-262 in what is offered, the last column says so. Beside \
that: holes of arrays count as undefined in `map`, `filter`, `forEach` and their kin, methods make plain arrays and never ask a \
`constructor` (no species), and strings are converted without `Symbol.toPrimitive`."""


def table(out, head, rows):
    line = lambda row: "|" + "".join(f" {it} |" if it else " |" for it in row)
    out += [line(head), line(["---"] * len(head)), *(line(it.replace("|", "\\|") for it in row) for row in rows), ""]


def page():
    known, params = paths(), parameters()
    every, kind = permits(known), dict(zip(known, kinds()))
    names = texts_in(text_of("crates/policy_globals/src/intrinsic.rt"), "INTRINSICS")
    out = [HEAD, "", "## Names", "", "Each package has these, whatever its policy says:", ""]
    rows = []
    for name in names:
        call = f"`{name}({params[name]})`" if name in params else "an object" if name in kind else "the package's own global object"
        rows.append((f"`{name}`", call, {"Constructor": "a constructor", "Function": "a function"}.get(kind.get(name), ""), NOTES.get(name, "")))
    table(out, ("Name", "Is", "", "Note"), rows)
    out += ["In a module there are `exports`, `require` and `module` besides, and `undefined` is a name for the value. What a row of the policy grants, "
            "and the application's own package has, are the host's objects:", ""]
    table(out, ("Name", "Members"), [(f"`{name}`" if name != "fs" else "`fs`, by `require('fs')` or `require('node:fs')`", ", ".join(f"`{it}`" for it in found)) for name, found in host().items()])
    missing = [it for it in STANDARD["globalThis"].split() if it not in [*names, "undefined"]]
    out += ["**In ECMA-262, and not here:** " + ", ".join(f"`{it}`" for it in missing) + ". There are no regular expressions, dates, promises, typed arrays, "
            "weak references and sets, and no `eval`; numbers that are no integers have no functions. Nor is there anything of a browser or of Node.js, as "
            "timers, `process`, `Buffer` and `fetch` (`examples/builtins` has packages for some of it). What SES has besides stands in `SES.md`.", ""]
    out += ["## Properties", "", "`f(x)` is a method with its parameters as the prelude writes them; a path is the object that stands there. "
            "What is not here may be inherited, as `valueOf` of `Object.prototype`.", ""]
    used = set()
    for path in [it for it in known if it in every]:
        rows, has = [], {key for key, *_ in every[path]}
        for key, what, place, number, override in every[path]:
            note = NOTES.get(place, "") if place and key != "constructor" and what != "NameOf" else ""
            used |= {place} if note else set()
            rows.append((f"`{key}`", said(key, what, place, number, params), note))
        out += [f"### {path}", ""]
        table(out, ("Property", "Is", "Note"), rows)
        lacks = [it for it in STANDARD.get(path, "").split() if it not in has and it not in INHERITED.get(path, ())]
        if lacks:
            out += ["Not here: " + ", ".join(f"`{it}`" for it in lacks) + ".", ""]
    faults = [f"NOTES has {it}, which is no common object" for it in NOTES if it not in known]
    faults += [f"the note on {it} stands nowhere" for it in NOTES if NOTES[it] and it not in used and it not in names]
    faults += [f"STANDARD has {it}, which has no permit" for it in STANDARD if it not in every and it != "globalThis"]
    faults += [f"{path}.{key} is neither in STANDARD nor of SES" for path in every if path in STANDARD for key, *_ in every[path] if key not in STANDARD[path].split()]
    faults += [f"the prelude has {it}, which is no common object" for it in params if it not in known]
    faults += [f"{place} is permitted, and the prelude has no such function" for path in every for _, what, place, *_ in every[path] if what == "Object" and kind[place] != "Ordinary" and place not in params]
    return "\n".join(out), faults


serve(".ci/library.py", "docs/LIBRARY.md", page, __doc__)
