#!/usr/bin/env python3
"""Definitions and lemmas in the spelling of the language: words in snake case, types and facts in camel case.

    python3 tools/names.py          renames in crates/ and in the words between back quotes of README.md and docs/
    python3 tools/names.py --list   prints the old and the new names, and changes nothing

What is renamed: what a file of specs/ or a file of lemmas of proofs/ declares (definitions, lemmas, constructors, fields) and is spelled in
another way. A capital inside a word becomes `_` and the small letter. A dash stays where it joins two names (of definitions, as in
`multiplicity-with_root`), and is `_` where it joins plain words. Functions of src/, exported names and strings keep theirs.
"""
import collections
import glob
import os
import re
import sys

TOKEN = re.compile(r"(?<![\w'◌-])[A-Za-z][\w'-]*(?![\w'◌-])")
TOP = re.compile(r"^(abbrev |unfoldable |pub )*([^\s:(){}]+(?: [^\s:(){}]+)*) :(?=\s)", re.M)
INNER = re.compile(r"^ +(?:pub )?([a-zA-Z][\w'-]*(?: [a-zA-Z][\w'-]*)*) : ", re.M)
TYPE = re.compile(r"^(?:pub )?(?:data|record) ([A-Z][\w']*)", re.M)
# what the library calls by these names
LIBRARY = set("length map zero suc xor append take drop reverse add mul sum".split())
# names that the turn to this language's library wrote in snake case already: pages and must-fail edits follow here
TURNED = """
across-lt add-assoc add-at add-comm add-left add-most add-row after-last afterCall all-append all-are all-once all-pass all-right
alone-at and-xor answerOf any-order at-most at-other at-zero baseOf below-length beside-end bit-high bit-kept both-left both-right
both-zero by-two byteAt bytes-fit calls-spec choose-one chosenOf cmp-step copy-spec count-fits count-same count-spec counted-spec
digit-lt digits-lt digits-of done-at entries-at entry-spec enum-told exponent-lt few-bytes field-laws fill-spec filled-none
filled-put first-below first-kind fold-step four-are from-end from-first from-front from-is from-next front-length gap-length
goes-on half-lt held-kept held-more holds-at holds-more in-order is-field is-found is-true keep-all kindOf last-some left-over
less-one less-zero limit-is line-refused linesOf listed-by listed-le listed-same listing-none listing-start map-at map-same
merge-step moved-all mul-assoc mul-comm mul-in mul-left mul-wide mulF no-bits no-bytes no-digit no-line no-longer no-second
number-lt numberOf odd-pos of-map one-down one-in one-more one-not-zero one-number one-power one-product one-same one-value
ordered-at part-small place-is placed-at power-le product-lt put-all put-both put-last put-next put-spec put-then quotient-by
quotient-is quotientOf read-spec reads-chunks reads-end ready-at remainder-of roots-few round-trip row-at rowOf rows-all rows-long
rows-ok rowsOf same-answer same-at same-bits same-bytes same-count same-digits same-length same-line same-ok same-refl same-spec
same-step same-test same-tests same-text scale-ok self-mod sets-then shift-is size-is so-far some-one some-same sorting-start
spaceOf step-is sub-order sub-out sum-comm sum-lt sum-self sumOf take-min taken-not taken-yes takenOf times-zero to-below to-last
to-map too-large too-long top-digit top-of top-one total-at-most two-pos unit-ok upTo value-spec valueAt valueOf written-none
writtenOf xor-assoc xor-comm xor-lt xor-self xor-shr zero-of zero-xor
""".split()
# words of the older library inside our names
WORDS = {"getD": "get_or"}


def files():
    specs = glob.glob("crates/*/specs/**/*.antt", recursive=True)
    return sorted(specs), sorted(glob.glob("crates/*/proofs/*.antt"))


def declared():
    """The names of definitions of specs/, and all that are declared."""
    specs, proofs = files()
    definitions, names = set(), collections.defaultdict(set)
    for path in specs + proofs:
        text = uncommented(open(path).read())
        for m in TOP.finditer(text):
            for name in m.group(2).split():
                names[name].add(path)
                if path in specs:
                    definitions.add(name)
        for m in INNER.finditer(text):
            for name in m.group(1).split():
                names[name].add(path)
        for m in TYPE.finditer(text):
            definitions.add(m.group(1))
    return definitions, names


def of_libraries():
    """What is imported from another place than our crates keeps its library's spelling, and so does a name of ours like it."""
    ours = set(os.listdir("crates"))
    out = set()
    for path in glob.glob("crates/**/*.antt", recursive=True) + glob.glob("crates/**/*.rt", recursive=True):
        for m in re.finditer(r"^(?:ghost )?use ([\w.◌]*[\w◌])(?:\.\{([^}]*)\})?", open(path).read(), re.M):
            place = m.group(1).split(".")
            if not (place[0] == "Rattle" and len(place) > 1 and place[1] in ours):
                out.update(re.split(r"[,\s]+", m.group(2) or ""))
    return out


# a lemma that was in snake case already, and meets a definition's new name
ALONE = {"crates/field/proofs/Refusal.antt": {"too_large": "too_large_lem"}}


def uncommented(text):
    return re.sub(r"--(?= ).*", "", text)


def small(word):
    """A word in snake case; a type or a fact, which begins with a capital, stays."""
    word = WORDS.get(word, word)
    if word[:1].isupper():
        return word
    return re.sub(r"(?<=[a-zA-Z0-9])([A-Z])", lambda m: "_" + m.group(1).lower(), word)


def renamed(name, joined):
    for old, new in WORDS.items():
        name = name.replace(old, new)
    if name[:1].isupper() and "-" not in name:
        return name
    parts = [small(part) for part in name.split("-")]
    out = parts[0]
    for left, right in zip(parts, parts[1:]):
        out += ("-" if left in joined and right in joined else "_") + right
    return out


def table():
    definitions, names = declared()
    joined = {small(name) for name in definitions if "-" not in name} | LIBRARY
    pairs, kept = {}, of_libraries()
    for name in names:
        if name not in kept and re.search(r"-|[a-z0-9][A-Z]", name) and re.fullmatch(r"[A-Za-z][\w'-]*", name):
            new = renamed(name, joined)
            if new != name:
                pairs[name] = new
    taken = {pairs.get(name, name) for name in definitions} | {"bit_or"}
    for name in pairs:
        if name not in definitions and pairs[name] in taken:
            pairs[name] += "_lem"
    return pairs, names


def turned(text, pairs):
    return TOKEN.sub(lambda m: pairs.get(m.group(0), m.group(0)), text)


def in_antt(text, pairs):
    camel = {old: new for old, new in pairs.items() if "-" not in old}
    lines = []
    for line in text.split("\n"):
        m = re.search(r"--(?= )", line)
        at = m.start() if m else len(line)
        lines.append(turned(line[:at], pairs) + quoted(turned(line[at:], camel), pairs))
    return "\n".join(lines)


def in_rt(text, pairs):
    """Clauses and imports hold such names; code has none with a dash or a capital inside."""
    camel = {old: new for old, new in pairs.items() if "-" not in old}
    lines = []
    for line in text.split("\n"):
        at = line.find("//") if "//" in line else len(line)
        ghost = line.lstrip().startswith(("ghost use", "requires", "ensures"))
        lines.append(turned(line[:at], pairs if ghost else camel) + turned(line[at:], camel))
    return "\n".join(lines)


def quoted(text, pairs):
    return re.sub(r"`[^`\n]*`", lambda m: turned(m.group(0), pairs), text)


def main():
    pairs, names = table()
    if "--list" in sys.argv:
        back = collections.defaultdict(list)
        for old, new in pairs.items():
            back[new].append(old)
        for name in names:
            if name not in pairs:
                back[name].append(name)
        for old in sorted(pairs):
            print(old, pairs[old])
        for new, olds in sorted(back.items()):
            if len(olds) > 1:
                print("TOGETHER", new, *olds, *(f"{o}: {sorted(names[o])}" for o in olds))
        return
    turned_already = {name: renamed(name, set()) for name in TURNED}
    for path in glob.glob("crates/**/*", recursive=True):
        if not os.path.isfile(path) or "/out/" in path:
            continue
        if path.endswith((".antt", ".rt", ".edit")):
            text = open(path).read()
            new = turned(text, ALONE.get(path, {}))
            if path.endswith(".edit"):
                new = in_antt(new, {**turned_already, **pairs})
            else:
                new = in_rt(new, pairs) if path.endswith(".rt") else in_antt(new, pairs)
            if new != text:
                open(path, "w").write(new)
    for path in ["README.md"] + sorted(glob.glob("docs/*.md")):
        text = open(path).read()
        new = quoted(text, {**turned_already, **pairs})
        if new != text:
            open(path, "w").write(new)


main()
