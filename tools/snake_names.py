#!/usr/bin/env python3
"""Respells the repository's own definitions and lemmas in snake case, once, after the kit's port script.

A name of a word, a field or a lemma is put into snake case: `linesOf` becomes `lines_of`, and `mark-more` becomes
`mark_more`. A dash stays where the part before it is itself the name of a definition, since such a lemma is named after
its left side, as `one_by_one-append`. Names of types, modules and variants, names that the check makes (goals, steps)
and names of src/ stay as they are. Names that would fall together are printed, and the run changes nothing.

    python3 tools/snake_names.py            at the top of the repository
"""
import os
import re
import subprocess
import sys

NAME = r"[A-Za-z_][A-Za-z0-9_'-]*"
TOKEN = re.compile(r"(?<![A-Za-z0-9_'◌·-])[A-Za-z_][A-Za-z0-9_'-]*")
SIGNATURE = re.compile(r"^\s*(?:unfoldable pub |abbrev pub |pub |abbrev |unfoldable )?(%s(?: %s)*) :(?= )" % (NAME, NAME))
HEAD = re.compile(r"^\s*(?:pub )?(?:record|data|module|ruleset|use|mod|import|open)\b")
# words of the library before a dash: a lemma about them keeps it
LIBRARY = set("length take drop map append any all every set get_or joined min max sub add mul div mod bool nat".split())
KEPT = {"cases_Bool", "not_from_Decides"}
# the field of a definition that shows the field of the same name of a source's type
MAY_MEET = {"effects_before"}
# lemmas that would fall together with the definition that they are about
CHOSEN = {
    "entry-at": "entry_at-here",
    "move-at": "move_at-next",
    "plain-same": "plain_same-by_text",
    "sight-same": "sight_same-by_text",
    "with-goal": "ends_with_goal",
    "without-goal": "ends_without_goal",
    "any-getD": "any-get_or",
    "times-getD": "times-get_or",
}


def snake(name):
    return re.sub(r"(?<=[a-z0-9'])([A-Z])", lambda m: "_" + m.group(1).lower(), name)


def files():
    out = subprocess.check_output(["git", "ls-files", "-co", "--exclude-standard", "crates"], text=True)
    return [f for f in sorted(set(out.split())) if os.path.isfile(f) and f.endswith((".antt", ".rt", ".edit"))]


def local(word):
    """A variable with a capital inside, as `settingPlace`; the parts of a goal's name stay."""
    if word in KEPT or not re.match(r"[a-z]", word):
        return word
    return "-".join(p if not re.match(r"[a-z]", p) else snake(p) for p in word.split("-"))


def is_goal(line, name):
    return re.search(r":\s*(?:goal|need|given)\.%s\b" % re.escape(name), line) is not None


def own_names(texts):
    plain, fields = set(), set()
    for path, text in texts.items():
        if not path.endswith(".antt"):
            continue
        block = None
        for line in text.split("\n"):
            if re.match(r"^\s*(?:abbrev )?(?:pub )?(?:record|data)\b", line):
                block = len(line) - len(line.lstrip())
                continue
            if line.strip() and block is not None and len(line) - len(line.lstrip()) <= block:
                block = None
            if HEAD.match(line) or line.lstrip().startswith("--"):
                continue
            m = SIGNATURE.match(line)
            if not m:
                continue
            for name in m.group(1).split():
                if name in ("pub", "abbrev", "unfoldable") or is_goal(line, name):
                    continue
                (fields if block is not None else plain).add(name)
    return plain, fields


def respelled(name, words):
    if name in CHOSEN:
        return CHOSEN[name]
    if name in KEPT or not re.match(r"[a-z]", name):
        return name
    parts = name.split("-")
    parts = [p if not re.match(r"[a-z]", p) else snake(p) for p in parts]
    if len(parts) > 1 and parts[0] in words:
        return parts[0] + "-" + "_".join(parts[1:])
    return "_".join(parts)


def main():
    texts = {f: open(f, encoding="utf-8").read() for f in files()}
    plain, fields = own_names(texts)
    camel = {n for n in plain | fields if re.search(r"[A-Z]", n) and re.match(r"[a-z]", n)}
    words = LIBRARY | {snake(n) for n in plain if "-" not in n}
    new = {}
    for name in plain | fields:
        to = respelled(name, words)
        if to != name:
            new[name] = to
    # two names fall together where one file has both; a part of a module's path is no name
    clash = False
    for path, text in texts.items():
        if not path.endswith(".antt"):
            continue
        bare = re.sub(r"(?m)^use [A-Za-z_.0-9'+-]*", "", text)
        here = set(TOKEN.findall(re.sub(r"--.*", "", bare)))
        becomes = {}
        for name in here:
            becomes.setdefault(new.get(name, name), []).append(name)
        for to, olds in becomes.items():
            if len(olds) > 1 and to not in MAY_MEET:
                print("falls together in %s: %s -> %s" % (path, ", ".join(olds), to))
                clash = True
    if clash:
        sys.exit(1)

    def turn(path, text):
        def one(m):
            word = m.group(0)
            if word not in new:
                return local(word)
            before = text[: m.start()]
            if before.endswith("."):
                head = re.search(r"([A-Za-z0-9_'-]+)\.$", before)
                module = head is not None and re.match(r"[A-Z]", head.group(1))
                if word not in fields and not module:
                    return word
            return new[word]

        if path.endswith(".antt"):
            return TOKEN.sub(one, text)
        # in sources and edits only names with a capital inside: nothing else of src/ is spelled so
        def source(m):
            word = m.group(0)
            return new[word] if word in new and word in camel else local(word)

        pieces = re.split(r'("(?:[^"\\]|\\.)*")', text)
        return "".join(p if i % 2 else TOKEN.sub(source, p) for i, p in enumerate(pieces))

    changed = 0
    for path, text in texts.items():
        to = turn(path, text)
        if to != text:
            with open(path, "w", encoding="utf-8") as f:
                f.write(to)
            changed += 1
    print("%d names respelled in %d files" % (len(new), changed))


main()
