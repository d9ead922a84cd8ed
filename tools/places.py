#!/usr/bin/env python3
"""Counts the places of docs/DESIGN-PASS.md in src/, a line for each: places.py [--show]. With --show each place is named. It reads the text alone, so what it counts is a first
answer: the page says what was found by reading."""
import collections
import glob
import re
import sys

SHOW = "--show" in sys.argv[1:]


def files():
    for name in sorted(glob.glob("crates/*/src/**/*.rt", recursive=True)):
        with open(name, encoding="utf-8") as it:
            yield name[len("crates/"):], it.read()


def bare(text):
    """The text without comments and ghost lines."""
    text = re.sub(r"//[^\n]*", "", text)
    return re.sub(r"^ *(ghost use|requires|ensures)\b[^\n]*\n", "", text, flags=re.M)


def block(text, start):
    """The text of the braces that open at start."""
    depth = 0
    for at in range(start, len(text)):
        depth += {"{": 1, "}": -1}.get(text[at], 0)
        if depth == 0:
            return text[start : at + 1]
    return text[start:]


def functions(text):
    for found in re.finditer(r"^(?:pub )?fn (\w+)", text, flags=re.M):
        body = text.find("{\n", found.end())
        yield found.group(1), text[found.start() : body], block(text, body)


def enums(text):
    for found in re.finditer(r"enum (\w+) (\{)", text):
        inner = block(text, found.start(2))[1:-1]
        yield found.group(1), re.findall(r"^    (\w+)(\([^)]*\))?,", inner, flags=re.M)


def shape(body):
    """A body with each name, number and string as one word: two bodies of one shape are twins or near to it."""
    body = re.sub(r'b?"[^"]*"|b?\'[^\']*\'', "S", body)
    body = re.sub(r"\b(?!(?:let|mut|if|else|while|for|in|match|return|loop|as|break|continue)\b)[A-Za-z_]\w*", "N", body)
    return re.sub(r"\s+", " ", re.sub(r"\b\d\w*", "0", body))


def main():
    places = collections.defaultdict(list)
    shapes = collections.defaultdict(list)
    for name, text in files():
        text = bare(text)
        for enum, variants in enums(text):
            names = [variant for variant, _ in variants]
            if len(variants) == 2 and sum(bool(payload) for _, payload in variants) == 1:
                places["1 own enums like Option"].append(f"{name} {enum}")
            elif any(re.match(r"Refused|FailsAt|BrokenAt|BadCall", it) for it in names) and any(p for _, p in variants):
                places["1 own enums like Result"].append(f"{name} {enum}")
        places["1 flags with a value beside"] += [f"{name} {it}" for it in re.findall(r"struct (\w+)[^{;]*\{\s*pub ok: bool|struct (\w+)[^{;]*\{[^}]*pub ok: bool", text)]
        places["1 numbers for kinds (fields)"] += [f"{name} {it}" for it in re.findall(r"^ *pub ((?:kind|sort|mark|mode|op): u16)", text, flags=re.M)]
        for fn, head, body in functions(text):
            where = f"{name} {fn}"
            if body.count("\n") >= 6:
                shapes[shape(body)].append(where)
            for found in re.finditer(r"^ *(while|loop)\b", body, flags=re.M):
                inner = block(body, body.index("{", found.end()))
                counts = re.search(r"\b\w+(?:\.\w+)? [+-]= [12];", inner)
                places["3 loops that count by hand" if counts else "3 other while and loop"].append(where)
            places["3 for"] += [where for _ in re.findall(r"^ *for ", body, flags=re.M)]
            if re.search(r"\(\w+: u\d+\) -> [A-Z]\w+$", head.strip()) and re.search(r"\d+ => \w+::", body):
                places["4 conversions from numbers"].append(where)
            if re.search(r"-> bool", head) and re.match(r"\{\s*match \w+ \{[^{}]*=> true,\s*_ => false,\s*\}\s*\}$|\{\s*match \w+ \{[^{}]*=> false,\s*_ => true,\s*\}\s*\}$", body):
                places["4 equality by a match"].append(where)
            if re.search(r"image: &\[u8\],\s*tables: Tables", head):
                places["5 image and tables together"].append(where)
            if re.search(r"body: &(?:mut )?\[u16; BODY_WORDS\],\s*counts: Counts", head):
                places["5 body and counts together"].append(where)
            if re.search(r"\[u\d+; \w+\]", head):
                places["6 fixed tables in a signature"].append(where)
    for _, twins in sorted(shapes.items()):
        if len(twins) > 1:
            places["2 bodies of one shape"].append(" = ".join(twins))
    for point in sorted(places):
        print(f"{point}: {len(places[point])}")
        if SHOW:
            for it in places[point]:
                print(f"    {it}")
    functions_in = sum(it.count(" = ") + 1 for it in places["2 bodies of one shape"])
    print(f"2 functions in these: {functions_in}")


main()
