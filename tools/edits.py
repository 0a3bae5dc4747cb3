#!/usr/bin/env python3
"""Brings the must-fail edits over to the spelling of the files that they change.

usage: edits.py [--check] [--before COMMIT]      run at the top of the repository, after port.py and respell.py

COMMIT is the last one with the old spelling (the default: HEAD, as long as what the two scripts before wrote is not committed).
For each pair of old: and new: it finds the old text in the file at COMMIT, and the same place in the file as it stands now. The new text is turned word by word,
as the words of that file were turned, and where the file has no such word as the words of the repository were. Then the old text stands once, and the pairs of an edit apply one after another.
A line 'left:' names an edit that needs a hand, and 'look:' one whose new text has a word that no file had. A second run changes nothing: an edit that is no longer as it was at COMMIT is left alone.
"""

import collections
import difflib
import glob
import os
import re
import subprocess
import sys

NAME = r'[^\s(){}.;,@"«»]+'
TOKEN = re.compile(NAME + r'|"(?:[^"\\\n]|\\.)*"|[(){}.;,@]')
WORD = re.compile(NAME)
# Pairs that no rule turns: (edit, its old: text) -> (old:, new:)
BY_HAND = {
    # only the end of a word stood in the old text
    ("crates/lex_struct/must-fail/budget_for_start.edit", ".text)) start budget"): ("self.now.text.now start budget", "self.now.text.now budget start"),
    # a reference's own field, which is called as many other things are
    ("crates/lex_struct/must-fail/input_of_another_name.edit", "s ≡ now (self .entry) .text ⌝"): ("result ≡ self.now.text", "result.ghost_name ≡ self.entry.ghost_name"),
}


def git(*words):
    return subprocess.run(["git", *words], capture_output=True, text=True, check=True).stdout


def flat(w):
    return re.sub(r"[-_·«»◌]", "", w).lower()


def plain(s):
    """The changes of form that every text of the old spelling takes: paths and escaped names."""
    s = re.sub(r"Rattle·(\w+)\.", r"Rattle.\1.", s)
    return re.sub(r"«(\w+)»", r"\1", s)


def ways_of(text, old):
    """The ways in which a text of the old form can read now, most likely first: (the parameters that are &mut, the name of the result)."""
    head = text[: text.index(old)]
    lent = set()
    for x in set(re.findall(r"(\w+) \.(?:entry|exit)", head + old)):
        found = list(re.finditer(rf"&(?:'\w+ )?(mut )?self\b" if x == "self" else rf"\b{x}: &(?:'\w+ )?(mut )?", head))
        if found and found[-1][1]:
            lent.add(x)
    bound = re.findall(r"\b(?:ensures)\b[^{]*\{ λ (\w+)\.", head + old)
    return [(lent, None)] + [(lent, r) for r in (bound[-1:] + ["r", "s"])]


def form(s, behind, result):
    s = plain(s)
    s = re.sub(r"^⌜ ?| ?⌝$", "", s.replace(" ⌝ ", " ").replace(" ⌜ ", " "))
    if behind is not None:
        s = re.sub(r"(?<![\w.])now \((\w+) \.entry\)", lambda m: m[1] + (".old" if m[1] in behind else ".now"), s)
        s = re.sub(r"(?<![\w.])now \((\w+) \.exit\)", r"\1.new", s)
    for _ in range(4):
        s = re.sub(r"(?<![\w.])now \(([\w.']+)((?: ?\.\w+)*)\)", lambda m: m[1] + m[2].replace(" ", "") + ".now", s)
    s = re.sub(r"(?<![\w.])now ([\w.']+)(?![\w.'])", r"\1.now", s)
    s = re.sub(r"([\w)\]']) \.(?=[\w◌])", r"\1.", s)
    s = re.sub(r"(?<![\w])\(([\w']+(?:\.\w+)+)\)", r"\1", s)
    if result:
        s = re.sub(rf"(?<![\w.']){result}(?![\w'])", "result", s)
    return s


def learnt(old, new, into):
    """Counts which word of the old text stands where which word of the new one does."""
    a, b = old.split("\n"), new.split("\n")
    m = difflib.SequenceMatcher(None, [flat(re.sub(r"\s", "", x)) for x in a], [flat(re.sub(r"\s", "", x)) for x in b], autojunk=False)
    for tag, i1, i2, j1, j2 in m.get_opcodes():
        if tag == "insert" or tag == "delete":
            continue
        x, y = WORD.findall(plain("\n".join(a[i1:i2]))), WORD.findall("\n".join(b[j1:j2]))
        if len(x) == len(y) and [flat(w) for w in x] == [flat(w) for w in y]:
            for v, w in zip(x, y):
                into[v][w] += 1
            continue
        if len(x) * len(y) > 4_000_000:
            continue
        n = difflib.SequenceMatcher(None, [flat(w) for w in x], [flat(w) for w in y], autojunk=False)
        for t, p1, p2, q1, q2 in n.get_opcodes():
            if t == "equal" or t == "replace" and p2 - p1 == q2 - q1:
                for v, w in zip(x[p1:p2], y[q1:q2]):
                    into[v][w] += 1 if t == "equal" else 0.4


class Words:
    """How the words of the repository were turned."""

    def __init__(self, at):
        self.at, self.by_file, self.all = at, {}, None

    def old_text(self, path):
        r = subprocess.run(["git", "show", f"{self.at}:{path}"], capture_output=True, text=True)
        return r.stdout if r.returncode == 0 else None

    def of_file(self, path):
        if path not in self.by_file:
            found = collections.defaultdict(collections.Counter)
            old = self.old_text(path)
            if old is not None:
                with open(path, encoding="utf-8") as f:
                    learnt(old, f.read(), found)
            self.by_file[path] = found
        return self.by_file[path]

    def of_all(self):
        if self.all is None:
            self.all = collections.defaultdict(collections.Counter)
            for path in git("ls-files", "crates").split():
                if re.match(r"crates/\w+/(?:specs/.*\.antt|src/.*\.rt|proofs/[^/]*\.antt)$", path):
                    for v, ws in self.of_file(path).items():
                        self.all[v].update(ws)
        return self.all

    def turned(self, w, path):
        """(the new word, whether some file had it)."""
        for table in (lambda: self.of_file(path), self.of_all):
            ws = table().get(w)
            if ws:
                best, n = max(ws.items(), key=lambda it: (it[1], it[0]))
                if n >= 1 or flat(best) == flat(w):
                    return best, True
        return w, bool(re.fullmatch(r"\d\w*|[\W_]+|\w", w))


def clauses(text):
    """Whether a text of a .rt file can only be one of a clause or a ghost use."""
    return re.search(r"ghost use|requires|ensures|≡|⌜|now \(|\.entry|\.«", text) is not None


def turn(s, path, words, unknown, way=(None, None)):
    s = form(s, *way)
    quiet = re.compile(r'"(?:[^"\\\n]|\\.)*"')

    def one(m):
        new, known = words.turned(m[0], path)
        if not known:
            unknown.append(m[0])
        return new

    out, at = [], 0
    for m in quiet.finditer(s):
        out += [WORD.sub(one, s[at: m.start()]), m[0]]
        at = m.end()
    return "".join(out + [WORD.sub(one, s[at:])])


def loose(s):
    return re.compile(r"\s*".join(map(re.escape, TOKEN.findall(s.strip()))))


def main(args):
    option = lambda n: args[args.index(n) + 1] if n in args else None
    at = option("--before") or "HEAD"
    words, left, looks, changed, same, turned_before = Words(at), [], [], 0, 0, 0
    for edit in sorted(glob.glob("crates/*/must-fail/*.edit")):
        # the text of the edit as it was: so a second run writes the same
        was = words.old_text(edit)
        if was is None:
            continue
        with open(edit, encoding="utf-8") as f:
            if f.read() != was:
                turned_before += 1
                continue
        crate = edit.split("/")[1]
        text, olds, news, done, bad = was.split("\n"), {}, {}, [], None
        file, old_line = None, None
        for k, line in enumerate(text):
            if line.startswith("file: "):
                file = line[6:]
                path = f"crates/{crate}/{file}"
                if path not in news:
                    olds[path] = words.old_text(path)
                    with open(path, encoding="utf-8") as f:
                        news[path] = f.read()
            elif line.startswith("old: "):
                old, old_line = line[5:], k
            elif line.startswith("new:") and not bad:
                new = line[5:]
                if olds[path] is None or olds[path].count(old) != 1:
                    bad = f"the old text stood {olds[path].count(old) if olds[path] else 0} times before"
                    break
                got, unknown = None, []
                clause = path.endswith(".antt") or clauses(old) or in_clause(olds[path], old)
                ways = (ways_of(olds[path], old) if path.endswith(".rt") else [(None, None)]) if clause else []
                if (edit, old) in BY_HAND:
                    got, ways = BY_HAND[edit, old], []
                elif not clause and news[path].count(old) == 1:
                    got = (old, new)
                for way in ways if not got else []:
                    o = turn(old, path, words, [], way)
                    hits = list(loose(o).finditer(news[path]))
                    hits = [h for h in hits if "\n" not in h[0]]
                    if len(hits) == 1:
                        lead = re.match(r"\s*", old)[0]
                        stood = hits[0][0]
                        full = lead + stood if news[path].count(lead + stood) == 1 and lead else stood
                        if news[path].count(full) == 1:
                            unknown = []
                            n = turn(new, path, words, unknown, way)
                            n = n if full[:1].isspace() else n.lstrip() if lead else n
                            got = (full, n)
                            break
                if not got and news[path].count(old) == 1:
                    got = (old, new)
                if not got:
                    bad = f"not found: {turn(old, path, words, [], ways[0] if ways else (None, None))}"
                    break
                if unknown:
                    looks.append(f"look: {edit}: new: {got[1]}   ({' '.join(unknown)}: in no file before)")
                text[old_line], text[k] = "old: " + got[0], "new: " + got[1]
                olds[path] = olds[path].replace(old, new)
                news[path] = news[path].replace(got[0], got[1])
                if got[0] == got[1]:
                    bad = "the old text and the new are the same"
        if bad:
            left.append(f"left: {edit}: {bad}")
            continue
        result = "\n".join(text)
        if result != was:
            changed += 1
        else:
            same += 1
        if result != was and "--check" not in args:
            with open(edit, "w", encoding="utf-8") as o:
                o.write(result)
    for line in looks + left:
        print(line)
    print(f"{changed} edits turned, {same} stand as they were, {turned_before} had been changed before, {len(left)} left by hand")
    return 1 if left else 0


def in_clause(text, old):
    """Whether the old text of a .rt file stands inside a clause or a ghost item."""
    at = text.index(old)
    start = text.rfind("\n", 0, at) + 1
    line = text[start: text.find("\n", at) if "\n" in text[at:] else None]
    if re.search(r"\b(?:requires|ensures|invariant|decreases)\b.*\{|ghost ", line):
        return True
    before_ = text[max(0, start - 600): at]
    m = list(re.finditer(r"\b(?:requires|ensures|invariant|decreases)\s*(?:\w+\s*)?\{", before_))
    if not m:
        return False
    depth = 1
    for c in before_[m[-1].end():]:
        depth += (c == "{") - (c == "}")
        if not depth:
            return False
    return True


if __name__ == "__main__":
    sys.exit(main(sys.argv[1:]))
