#!/usr/bin/env python3
"""respell.py [--list]: brings the definitions and lemmas of crates/*/specs and crates/*/proofs to one spelling, after port.py.
Words are in snake case, types in camel case: rulesIn and rules-in become rules_in, Cell-said becomes CellSaid. Names of functions, of
src/, of the kit and of what the check makes keep theirs. It reads and writes code, and words in backticks in comments and pages."""
import glob, re, sys, collections

WORD = re.compile(r"[^\s(){}\[\];,.«»\"`]+")
SIGNATURE = re.compile(r"^(\s*)((?:pub |abbrev |unfoldable |opaque )*)((?:[^\s(){}\[\];,.:]+ )+):(?: |$)")
HEAD = re.compile(r"^\s*(?:pub )?(?:record|data|module) ([^\s(){}\[\];,.:]+)")
USE = re.compile(r"^\s*(?:pub )?(?:ghost )?(?:pub )?use ([^\s{]+?)(?:\.\{([^}]*)\})?;?$")

# What would fall together with another name, and its own way out.
BY_HAND = {
    "Held-already": "IsHeldAlready", "addRefusal": "refusal_of_add", "removeRefusal": "refusal_of_remove", "commandOf": "command_from",
    "entryNumber": "number_of_entry", "entryRefusal": "refusal_of_entry", "partRefusal": "refusal_of_part", "partSize": "size_of_part",
    "partStart": "start_of_part", "fillsQuestion": "question_fills", "fillsRule": "rule_fills", "goesOn": "is_going_on",
    "hexDigit": "hex_digit_of", "in-word": "in_this_word", "inOrder": "numbers_in_order", "is-held": "tells_held", "is-blank": "blank_is_it",
    "isBlank": "is_blank_byte", "isDigit": "is_digit_byte", "isEscaped": "is_escaped_byte", "isLower": "is_lower_byte",
    "isUpper": "is_upper_byte", "isWord": "is_word_byte", "is-term": "is_a_term", "isTerm": "is_term_row", "isName": "passes_as_name",
    "isWrong": "is_wrong_command", "nameIn": "name_inside", "put-field": "put_field_sets", "putByte": "byte_put", "sameRow": "same_rows",
    "slot-of": "slot_of_it", "term-at": "term_stands_at", "nodes-of": "nodes_of_rules", "slot-here": "slot_is_here",
    "node-count": "node_count_is", "same-cell": "same_cell_is",
}

def sources():
    return sorted(glob.glob("crates/*/specs/**/*.antt", recursive=True) + glob.glob("crates/*/proofs/**/*.antt", recursive=True))

def code(line):
    at = line.find("--")
    return line if at < 0 or (at > 0 and line[at - 1] not in " \t") else line[:at]

def declared():
    found = collections.defaultdict(set)
    for path in sources():
        text = open(path).read()
        walk = " as tie" in text or " as goal" in text
        for line in text.split("\n"):
            line = code(line)
            m = SIGNATURE.match(line)
            names = []
            if m and not (walk and re.search(r": (tie|goal)\.", line)):
                names += m.group(3).split()
            m = HEAD.match(line)
            if m:
                names.append(m.group(1))
            for n in names:
                found[n].add(path)
    return found

def imported():
    """Names that come from outside: the kit's modules, what the check makes of a function, what it makes of a Rust type."""
    out = collections.defaultdict(set)
    own = {re.sub(r"/", ".", re.sub(r"^crates/", "Rattle.", p))[: -len(".antt")] for p in sources()}
    for path in sources() + sorted(glob.glob("crates/*/src/**/*.rt", recursive=True)):
        for line in open(path).read().split("\n"):
            m = USE.match(line)
            if not m or not m.group(2):
                continue
            if m.group(1) not in own:
                for n in m.group(2).split(","):
                    out[n.split(" as ")[0].strip()].add(path)
    return out

def spelled(n):
    if n in BY_HAND:
        return BY_HAND[n]
    n = n.replace("≢", "-not-").replace("≤", "-le")
    if n[0].isupper():
        return re.sub(r"-(.)", lambda m: m.group(1).upper(), n)
    n = n.replace("-", "_")
    return re.sub(r"([a-z0-9])([A-Z])", lambda m: m.group(1) + "_" + m.group(2).lower(), n)

def table():
    names, outside = declared(), imported()
    turned = {}
    for n in names:
        if n in outside or not re.fullmatch(r"[A-Za-z0-9_'≢≤₀-₉-]+", n) or not re.match(r"[A-Za-z]", n) or n.endswith("-spec"):
            continue
        if re.match(r"(invariant|decreases)-", n):
            continue
        m = spelled(n)
        if m != n:
            turned[n] = m
    return turned, names, outside

def main():
    turned, names, outside = table()
    if "--list" in sys.argv:
        words = collections.Counter()
        for path in sources() + sorted(glob.glob("crates/*/src/**/*.rt", recursive=True)):
            for line in open(path).read().split("\n"):
                words.update(WORD.findall(line.split("//")[0] if path.endswith(".rt") else code(line)))
        for n, m in sorted(turned.items()):
            if m in words:
                print("falls together:", n, m, words[n], words[m], sorted(p[7:] for p in names[n])[:2], sorted(p[7:] for p in names.get(m, []))[:2], "KIT" if m in outside else "")
        back = collections.defaultdict(list)
        for n, m in turned.items():
            back[m].append(n)
        for m, ns in back.items():
            if len(ns) > 1:
                print("two of one:", m, ns)
        print(len(turned), "names; declared but outside too:", sorted(n for n in names if n in outside and spelled(n) != n))
        return
    fields = set()
    for path in sources():
        for line in open(path).read().split("\n"):
            m = re.match(r"^ +pub ([^\s:]+) :", line)
            if m:
                fields.add(m.group(1))
    def turn(text, walk=False):
        # In a proof of a function what stands after a dot may be a name that the check made.
        def one(m):
            n = m.group(0)
            if walk and text[m.start() - 1 : m.start()] == "." and n not in fields:
                return n
            return turned.get(n, n)
        return WORD.sub(one, text)
    def ticked(text):
        return re.sub(r"`[^`\n]+`", lambda m: turn(m.group(0)), text)
    for path in sources():
        lines = []
        text = open(path).read()
        walk = " as tie" in text or " as goal" in text
        for line in text.split("\n"):
            c = code(line)
            if re.search(r" as (tie|goal)\b", c) or re.match(r"\s*use .*\.(Statement|Tie|Goals|Given)\.", c):
                lines.append(line)
            else:
                lines.append(turn(c, walk) + ticked(line[len(c):]))
        open(path, "w").write("\n".join(lines))
    for path in sorted(glob.glob("crates/*/src/**/*.rt", recursive=True)):
        lines = []
        for line in open(path).read().split("\n"):
            at = line.find("//")
            c = line if at < 0 else line[:at]
            if re.match(r"\s*(ghost use|requires|ensures|invariant|decreases|ghost)\b", c):
                c = turn(c)
            lines.append(c + ticked(line[len(c) if at < 0 else at:]))
        open(path, "w").write("\n".join(lines))
    for path in sorted(glob.glob("*.md") + glob.glob("docs/**/*.md", recursive=True)):
        if path.endswith("PORT.md"):
            continue
        text = open(path).read()
        open(path, "w").write(ticked(text))
    print(len(turned), "names turned")

main()
