"""The bugs that tools/mutate plants: finds in a Rattle source each place that one small edit turns wrong.

Only code is edited: bodies of functions, and the values of constants and of enum variants; no signature, clause, `use`, attribute or comment.
"""

import collections
import os
import re

Token = collections.namedtuple("Token", "kind text start end")
# One bug: edits are (start, end, new text) in the file, scope is the function or item that it stands in.
Mutant = collections.namedtuple("Mutant", "file line scope kind edits said")

LEX = re.compile(
    r"(?P<comment>//[^\n]*|/\*.*?\*/)|(?P<bytes>b\"(?:\\.|[^\"\\])*\")|(?P<string>\"(?:\\.|[^\"\\])*\")"
    r"|(?P<char>b?'(?:\\[^'\n]+|[^\\'\n])')|(?P<lifetime>'\w+)|(?P<number>\d\w*)|(?P<word>[A-Za-z_]\w*)"
    r"|(?P<op>\.\.=|\.\.|::|->|=>|==|!=|<=|>=|&&|\|\||\+=|-=|\*=|[^\s\w])|(?P<other>\w)",
    re.S,
)
TURNED = {"<": "<=", "<=": "<", ">": ">=", ">=": ">", "==": "!=", "!=": "==", "&&": "||", "||": "&&"}
NAMED = {"&&": "and-or", "||": "and-or", "==": "equal", "!=": "equal"}
OPENS, CLOSES = "([{", ")]}"
BLOCKS = ("if", "for", "while", "match", "loop")


def tokens(text):
    found = (Token(m.lastgroup, m.group(), m.start(), m.end()) for m in LEX.finditer(text))
    return [t for t in found if t.kind != "comment"]


class Source:
    def __init__(self, file, text):
        self.file, self.text, self.mutants, self.words = file, text, [], collections.defaultdict(set)
        self.t = tokens(text)
        self.match = self.pairs()
        self.find()

    def pairs(self):
        """Returns where each bracket's partner stands."""
        open_at, found = [], {}
        for i, t in enumerate(self.t):
            if t.kind == "op" and t.text in OPENS:
                open_at.append(i)
            elif t.kind == "op" and t.text in CLOSES and open_at:
                found[open_at[-1]] = i
                found[i] = open_at.pop()
        return found

    def at(self, i):
        return self.t[i].text if 0 <= i < len(self.t) else ""

    def add(self, scope, kind, edits, said):
        line = self.text.count("\n", 0, edits[0][0]) + 1
        self.mutants.append(Mutant(self.file, line, scope, kind, edits, re.sub(r"\s*\n\s*", " ", said)))

    def swap(self, scope, kind, one, other):
        """Exchanges two spans of text. (An arm that is a block may lack the comma that another needs.)"""
        a, b = self.text[slice(*one)], self.text[slice(*other)]
        comma = lambda at, new: "," * (kind == "arms" and self.text[at] != "," and not new.startswith("{"))
        if a.split() != b.split():
            self.add(scope, kind, [(*one, b + comma(one[1], b)), (*other, a + comma(other[1], a))], f"`{a}` and `{b}` exchanged")

    def span(self, first, past):
        """Returns the text of tokens, from the first to the last before `past`."""
        return self.t[first].start, self.t[past - 1].end

    def find(self):
        """Finds the code of the file: bodies of functions, and values of constants and of enum variants."""
        i = 0
        while i < len(self.t):
            word = self.at(i)
            if word == "#" and self.at(i + 1) in ("[", "!"):
                i = self.match[i + 1 + (self.at(i + 1) == "!")]
            elif word in ("ghost", "use") and self.t[i].kind == "word":
                i = self.end_of_item(i)
            elif word == "fn":
                i = self.function(i)
            elif word == "const":
                end = self.end_of_item(i)
                begin = next((k for k in range(i, end) if self.at(k) == "="), end)
                self.constants(f"const {self.at(i + 1)}", begin + 1, end)
                i = end
            elif word == "enum":
                opens = next(k for k in range(i, len(self.t)) if self.at(k) == "{")
                for k in range(opens, self.match[opens]):
                    if self.at(k) == "=":
                        self.constants(f"enum {self.at(i + 1)}", k + 1, k + 2)
                i = self.match[opens]
            i += 1

    def end_of_item(self, i):
        """Returns where the `;` or the `,` stands that ends an item or a ghost field, or the bracket that encloses it."""
        while i < len(self.t) and self.at(i) not in (";", ",", *CLOSES):
            i = self.match[i] + 1 if self.at(i) in OPENS else i + 1
        return i

    def function(self, i):
        """Plants in the body of the function whose `fn` stands at i, and returns where it ends."""
        name, result, k = self.at(i + 1), [], i + 2
        while self.at(k) != "{":
            if self.at(k) in ("requires", "ensures"):
                while self.at(k) != "{":
                    k += 1
                k = self.match[k] + 1
                continue
            if self.at(k) == ";":
                return k
            if self.at(k) == "->":
                result = [k + 1]
            if result and self.at(k) in ("where", "requires", "ensures"):
                result = result[:1]
            k = self.match[k] + 1 if self.at(k) in "([" else k + 1
        gives = self.text[self.t[result[0]].start : self.t[k].start].split("\n")[0].strip() if result else ""
        self.words[name].update(t.text for t in self.t[k : self.match[k]])
        # (a body that is only 0 is that of a law, whose number nobody reads)
        if self.match[k] != k + 2 or self.at(k + 1) != "0":
            self.early(name, k, gives)
            self.body(name, k + 1, self.match[k], not gives)
        return self.match[k]

    def early(self, scope, opens, gives):
        answers = {"bool": ["return false;"], "": ["return;"]}.get(gives, [])
        answers += ["return None;"] * gives.startswith("Option<") + ["return Ok(());"] * gives.startswith("Result<(),")
        for answer in answers:
            if " ".join(self.text[self.t[opens].end : self.t[self.match[opens]].start].split()) != answer[7:-1]:
                self.add(scope, "early", [(self.t[opens].end,) * 2 + (" " + answer,)], f"`{answer}` first")

    def body(self, scope, first, past, is_unit):
        self.constants(scope, first, past)
        for i in range(first, past):
            t = self.t[i]
            spaced = self.text[t.start - 1] == " " and self.text[t.end : t.end + 1] in (" ", "\n")
            if t.kind == "op" and t.text in TURNED and (spaced or self.text[t.start - 1] in " \n" and t.text in ("&&", "||")):
                kind = NAMED.get(t.text, "bound")
                if t.text != "||" or self.at(i - 1) not in ("(", ",", "="):
                    self.add(scope, kind, [(t.start, t.end, TURNED[t.text])], f"`{t.text}` to `{TURNED[t.text]}`, {self.around(i)}")
            if t.text in ("+", "-") and spaced and self.at(i + 1) == "1":
                end = self.t[i + 1].end
                kind = "plus-one" if t.text == "+" else "minus-one"
                self.add(scope, kind, [(self.t[i - 1].end, end, "")], f"`{t.text} 1` dropped, {self.around(i)}")
            if t.text == "!" and self.t[i - 1].kind != "word":
                self.add(scope, "not", [(t.start, t.end, "")], f"`!` dropped, {self.around(i)}")
            if t.text == "(" and (self.t[i - 1].kind == "word" or self.at(i - 1) == ">"):
                self.arguments(scope, i)
            if t.text == "match":
                self.arms(scope, i)
        self.block(scope, first, past, is_unit)

    def around(self, i):
        line = self.text.rfind("\n", 0, self.t[i].start) + 1
        return "`" + self.text[line : self.text.find("\n", line)].strip() + "`"

    def constants(self, scope, first, past):
        for i in range(first, past):
            t, was = self.t[i], self.t[i].text
            if t.kind == "number" and self.at(i - 1) != "." and not self.is_length(i):
                digits = re.match(r"[\d_]+", was)[0]
                n = int(digits.replace("_", ""))
                for new in [n + 1] + [n - 1] * (n > 0):
                    shown = f"{new:_}" if "_" in digits else str(new)
                    self.add(scope, "constant", [(t.start, t.end, shown + was[len(digits) :])], f"`{was}` to `{shown}`, {self.around(i)}")
            elif t.kind in ("char", "bytes"):
                new = self.other_text(was)
                self.add(scope, "literal", [(t.start, t.end, new)], f"`{was}` to `{new}`, {self.around(i)}")

    def is_length(self, i):
        """Whether a number is a length in a type or of an array, which the types fix."""
        return self.at(i + 1) == "]" and self.at(i - 1) == ";" or self.at(i - 1) == "<" and self.at(i + 1) == ">"

    def other_text(self, was):
        """Returns a literal with its last character, or for blanks its first, as another."""
        quote = was[-1]
        head, inner = was[: was.index(quote) + 1], was[was.index(quote) + 1 : -1]
        if inner.startswith("\\"):
            return head + "x" + quote
        if not inner.strip():
            return head + "x" + inner[1:] + quote
        return head + inner[:-1] + chr(ord(inner[-1]) + 1) + quote

    def parts(self, opens):
        """Returns the spans of tokens between the commas inside a bracket."""
        found, begin, k = [], opens + 1, opens + 1
        while k < self.match[opens]:
            if self.at(k) == "|" and k == begin:
                # a closure's parameters
                k = next(j for j in range(k + 1, self.match[opens]) if self.at(j) == "|")
            if self.at(k) == ",":
                found.append((begin, k))
                begin = k + 1
            k = self.match[k] + 1 if self.at(k) in OPENS else k + 1
        return found + [(begin, k)] * (begin < k)

    def arguments(self, scope, opens):
        parts = self.parts(opens)
        for one, other in zip(parts, parts[1:]):
            if (self.at(one[0]) in "&|") == (self.at(other[0]) in "&|"):
                self.swap(scope, "arguments", self.span(*one), self.span(*other))

    def arms(self, scope, i):
        opens = i + 1
        while self.at(opens) != "{":
            opens = self.match[opens] + 1 if self.at(opens) in "([" else opens + 1
        results, k = [], opens + 1
        while k < self.match[opens]:
            while self.at(k) != "=>":
                k = self.match[k] + 1 if self.at(k) in OPENS else k + 1
            begin = k + 1
            k = self.match[begin] + 1 if self.at(begin) == "{" else begin
            while k < self.match[opens] and self.at(k) != "," and self.at(begin) != "{":
                k = self.match[k] + 1 if self.at(k) in OPENS else k + 1
            results.append(self.span(begin, k))
            k += self.at(k) == ","
        for one, other in zip(results, results[1:]):
            self.swap(scope, "arms", one, other)

    def block(self, scope, first, past, is_unit):
        """Drops each statement of a block, and of the blocks inside it. In a block that has no value, its last one too."""
        k = first
        while k < past:
            begin, is_block, head = k, self.at(k) in BLOCKS, self.at(k)
            while k < past and self.at(k) != ";":
                if self.at(k) == "{":
                    inside_unit = head in ("for", "while", "loop") or is_block and is_unit
                    if head != "match" and self.holds_statements(k):
                        self.block(scope, k + 1, self.match[k], inside_unit)
                    elif head == "match" and self.holds_statements(k):
                        self.arm_blocks(scope, k, is_block and is_unit)
                    k = self.match[k] + 1
                    if is_block and self.at(k) != "else" and self.at(k) not in (".", "?"):
                        break
                else:
                    k = self.match[k] + 1 if self.at(k) in "([" else k + 1
            ends = k + 1 if self.at(k) == ";" and k < past else k
            is_last = ends >= past and self.at(ends - 1) != ";"
            is_let = head == "let" and self.at(begin + 1) != "_"
            if not is_let and head not in ("ghost", "use", "const") and (not is_last or is_unit and is_block):
                start, end = self.span(begin, ends)
                self.add(scope, "statement", [(start, end, "")], f"`{self.text[start:end]}` dropped")
            k = ends

    def holds_statements(self, opens):
        """Whether a brace opens a block or the arms of a match, and not the fields of a struct."""
        before = self.t[opens - 1]
        return not (before.kind == "word" and before.text[0].isupper() and self.at(opens - 2) not in ("if", "match", "while", "in")) or self.at(opens + 2) not in (":", ",", "}")

    def arm_blocks(self, scope, opens, is_unit):
        for k in range(opens, self.match[opens]):
            if self.at(k) == "=>" and self.at(k + 1) == "{" and self.match[k + 1] > k + 2:
                self.block(scope, k + 2, self.match[k + 1], is_unit)


def mutants(file, text):
    """Returns the mutants of a file, in a fixed order."""
    return sorted(set_of(Source(file, text).mutants), key=lambda m: (m.edits[0][0], m.kind, m.edits))


def calls(folder):
    """Returns for each function of a crate the names of those that it calls, and that these call in turn."""
    found = collections.defaultdict(set)
    for name in sorted(os.listdir(folder)):
        with open(f"{folder}/{name}", encoding="utf-8") as it:
            for scope, words in Source(name, it.read()).words.items():
                found[scope] |= words
    named = {scope: words & set(found) for scope, words in found.items()}
    for _ in named:
        named = {scope: below.union(*(named[it] for it in below)) for scope, below in named.items()}
    return collections.defaultdict(set, named)


def set_of(found):
    seen = set()
    return [m for m in found if (key := str(m.edits)) not in seen and not seen.add(key)]


def applied(text, edits):
    for start, end, new in sorted(edits, reverse=True):
        text = text[:start] + new + text[end:]
    return text
