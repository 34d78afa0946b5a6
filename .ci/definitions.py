"""Files of definitions: what each of them declares, and which names its declarations mention.

The forms of `specs/`: definitions by a signature and clauses, records, data types, `mutual` and `module _` blocks, `where`, fixities;
in terms `λ`, `let`, `do`, tuples and record literals. A variable that is bound, and a label of a field, are no mention.
"""
import collections
import re

USE = re.compile(r"^\s*(?:ghost |pub |unfoldable )*use (?:Rattle\.)?([\w.]+?)(?:\.\{([^}]*)\})?(?: as (\w+))?;?\s*$")
MARKS = {"pattern", "unfoldable", "abbrev", "axiom", "pub"}
BLOCK = re.compile(r"(?:module _\b.* where|(?:(?:unfoldable|abbrev|pub) )*mutual)\s*$")

# ---- the words of a file of definitions

ATOM = r'(?:«[^»]*»|[^\s(){}.;,@"«»])+'
LEXEME = re.compile(rf'"(?:\\.|[^"\\])*"|\.?{ATOM}(?:\.{ATOM})*|[(){{}}.;,@]')
COMMENT = re.compile(r"(?<!\S)--.*")
# words of the language, and what every file has from its prelude
WORDS = set("λ → × = | : ← _ @ . ; , let in do where record data module mutual abbrev unfoldable pub Type Unit tt ⊥ ¬ ℓ κ".split())
# constructors that are spelled as variables are: those of the prelude, and the kit's, by their modules; others begin with a capital
PRELUDE = ("yes", "no", "tt")
SMALL = {
    "std.specs.Prelude": ("zero", "suc", "true", "false", "pos", "negsuc"),
    "serde_json.specs.Data": ("null", "boolean", "number", "string", "array", "object", "no_items", "item", "no_members", "member"),
}

Token = collections.namedtuple("Token", "text column first")


def tokens_of(lines):
    """The words of some lines, each with its column and whether it is the first of its line."""
    found = []
    for line in lines:
        for at, match in enumerate(LEXEME.finditer(COMMENT.sub("", line))):
            found.append(Token(match.group(), match.start(), at == 0))
    return found


def is_name(text):
    """Whether a word is a bare name: no path, no numeral, no text and no word of the language."""
    return text not in WORDS and not re.match(r'[\d".(){]', text) and not re.search(r"[^«]\.\S", re.sub(r"«[^»]*»", "«»", text))


def depth_in(text):
    """How many brackets a text opens beyond those that it shuts."""
    bare = re.sub(r'"(?:\\.|[^"\\])*"', "", COMMENT.sub("", text))
    return sum(bare.count(one) for one in "({") - sum(bare.count(one) for one in ")}")


class Reading:
    """The names that some words mention, and the variables that they bind.

    `variable` says of a bare name of a pattern whether it is one; else it is a constructor, and mentioned.
    """

    def __init__(self, tokens, variable):
        self.tokens, self.variable, self.mentions = tokens, variable, []
        self.shuts, opened = {}, []
        for at, token in enumerate(tokens):
            if token.text in "({":
                opened.append(at)
            elif token.text in ")}" and opened:
                self.shuts[opened.pop()] = at
        self.shuts.update({at: len(tokens) for at in opened})

    def beyond(self, at):
        """The place behind a word, or behind the bracket that it opens."""
        return self.shuts.get(at, at) + 1

    def find(self, words, at, end):
        """The first of some words that stands outside the brackets between two places, or the end."""
        while at < end and self.tokens[at].text not in words:
            at = self.beyond(at)
        return min(at, end)

    def mention(self, path, bound):
        """Keeps a path that begins with a name, unless that is a variable."""
        first = path.split(".")[0]
        if first and first not in bound and path not in WORDS and not re.match(r'[\d"(){}]', path):
            self.mentions.append(path)

    def pattern(self, at, end, bound):
        """The variables of a pattern. Its constructors are mentioned, and so is the type of a variable that has one."""
        names = set()
        while at < end:
            text = self.tokens[at].text
            if text in "({" and self.binders(at):
                inner = self.binders(at)
                names |= inner
                self.walk(at + 1 + len(inner), self.shuts[at], bound)
                at = self.beyond(at)
                continue
            if is_name(text) and self.variable(text):
                if not (at + 1 < end and self.tokens[at + 1].text == "="):
                    names.add(text)
            else:
                self.mention(text, bound)
            at += 1
        return names

    def binders(self, at):
        """The variables that an opening bracket declares, as in `(x y : A)`."""
        names, at = [], at + 1
        while at < len(self.tokens) and is_name(self.tokens[at].text):
            names.append(self.tokens[at].text)
            at += 1
        return set(names) if names and at < len(self.tokens) and self.tokens[at].text == ":" else set()

    def statements(self, at, end):
        """The places at which the statements of a `do` begin and end, the one at `at` first."""
        column, starts, place = self.tokens[at].column, [at], self.beyond(at)
        while place < end:
            token = self.tokens[place]
            if token.first and token.column < column:
                end = place
            elif token.text == ";" or (token.first and token.column == column):
                starts.append(place + (token.text == ";"))
            place = self.beyond(place)
        return list(zip(starts, starts[1:] + [end]))

    def walk(self, at, end, bound, braces=False):
        """Reads what stands between two places, where these variables are bound, and gives those that are bound at its end."""
        begin, bound, due, arrows = at, set(bound), {}, {}
        while at < end:
            bound |= due.pop(at, set())
            token = self.tokens[at]
            if at in arrows:
                arrow, behind = arrows.pop(at)
                due.setdefault(behind, set()).update(self.pattern(at, arrow, bound))
                at = arrow + 1
            elif braces and self.is_label(at, begin, end):
                at += 2
            elif token.text in "({":
                names = self.binders(at)
                self.walk(at + 1 + len(names), self.shuts[at], bound | names, token.text == "{")
                bound |= names
                at = self.beyond(at)
            elif token.text == "λ":
                dot = self.find(".", at, end)
                bound |= self.pattern(at + 1, dot, bound)
                at = dot + 1
            elif token.text == "let":
                at = self.let(at, end, bound, due)
            else:
                if token.text == "do":
                    self.block(at, end, bound, arrows)
                self.mention(token.text, bound)
                at += 1
        return bound

    def is_label(self, at, begin, end):
        """Whether a word in braces is the name of a field or of an argument, with a `=` behind it."""
        heads = at == begin or self.tokens[at].first or self.tokens[at - 1].text == ";"
        return heads and at + 1 < end and self.tokens[at + 1].text == "=" and is_name(self.tokens[at].text)

    def let(self, at, end, bound, due):
        """The variables of a `let` are bound behind its `in`, or behind its statement where it has none."""
        behind = self.find((":", "="), at, end)
        names = self.pattern(at + 1, behind, bound)
        place, open_ = behind, 1
        while place < end and open_:
            text = self.tokens[place].text
            open_ += (text == "let") - (text == "in")
            place = self.beyond(place)
        if open_:
            place = next((one for one in range(behind, end) if self.tokens[one].first and self.tokens[one].column <= self.tokens[at].column), end)
        due.setdefault(place, set()).update(names)
        return behind

    def block(self, at, end, bound, arrows):
        """A `do` mentions the two operators that join its statements."""
        parts = self.statements(at + 1, end) if at + 1 < end else []
        for number, (start, stop) in enumerate(parts):
            arrow = self.find("←", start, stop)
            if arrow < stop:
                arrows[start] = (arrow, stop)
                self.mention(">>=", bound)
            elif number + 1 < len(parts) and self.tokens[start].text != "let":
                self.mention(">>", bound)


# ---- the definitions of a file


class Definition:
    """A definition of a file: its lines with the comment above it, what it is, and the block in which it stands."""

    def __init__(self, name, kind, indent, block):
        self.name, self.kind, self.indent, self.block = name, kind, indent, block
        self.lines, self.code, self.parts = 0, [], []

    def units(self):
        """Its signature and its clauses, or its head and its parts, each with its own lines."""
        step, found, open_ = self.indent + (2 if self.kind in ("record", "data") else 0), [], 0
        for line in self.code:
            indent = len(line) - len(line.lstrip())
            if not found or (not open_ and indent <= step):
                found.append([])
            found[-1].append(line)
            open_ += depth_in(line)
        return found


def head_of(line):
    """What a line declares: its kind, and the names that stand before the colon; none where it declares nothing."""
    words = [token.text for token in tokens_of([line])]
    kind, names, at = "", [], 0
    while words[at:] and words[at] in MARKS | {"record", "data"} and len(words) > at + 1 and words[at + 1] not in (":", "="):
        kind, at = words[at], at + 1
    while at < len(words) and is_name(words[at]):
        names, at = names + [words[at]], at + 1
    depth = 0
    for text in words[at:]:
        if not depth and text == "=":
            return kind, []
        if not depth and text == ":":
            return kind, names
        depth += (text in "({") - (text in ")}")
    return kind, []


class File:
    """A file of definitions: what it defines, and where the names that it takes over come from."""

    def __init__(self, path):
        self.path, self.definitions, self.taken, self.aliases = path, {}, {}, {}
        self.current, self.block, self.comment, self.open = None, None, 0, 0

    @staticmethod
    def read(path):
        """A file of definitions, from its lines."""
        file = File(path)
        for number, line in enumerate(path.read_text(encoding="utf-8").splitlines(), 1):
            file.line(number, line)
        return file

    @staticmethod
    def of_code(path, lines):
        """What the lines of a file of code bring to its clauses."""
        file = File(path)
        for use in filter(None, map(USE.match, lines)):
            file.take(*use.groups())
        return file

    def line(self, number, line):
        """Takes in a line: what it brings, a comment, the head of a block, or a part of a definition."""
        text, indent = line.strip(), len(line) - len(line.lstrip())
        use = USE.match(line)
        if use:
            self.take(*use.groups())
        elif not text:
            self.comment = 0
        elif text.startswith("--"):
            if self.current is not None and indent > self.current.indent:
                self.current.lines += 1
            else:
                self.comment += 1
        elif indent == 0 and BLOCK.match(text):
            self.begin_block(line, number)
        elif not re.match(r"(?:pub )?mod ", text):
            self.add(line, indent)

    def take(self, module, names, alias):
        """What a `use` line brings: names, each part of an operator's for itself, or a module."""
        if names is None:
            self.aliases[alias or module.rsplit(".", 1)[-1]] = module
            return
        for one in names.split(","):
            name, _, other = one.strip().partition(" as ")
            for part in filter(None, (other or name).split("◌")):
                self.taken[part] = (module, name)

    def begin_block(self, line, number):
        """A block has a line of its own, which is read with each of its definitions."""
        self.block = Definition(f"{line.strip()} (line {number})", "block", 0, None)
        self.block.code, self.block.lines = [line], 1 + self.comment
        self.current, self.comment = None, 0

    def add(self, line, indent):
        """Adds a line to the definition that it begins, or to the one that is open."""
        if not self.open and indent == 0:
            self.block = None
        kind, names = ("", []) if self.open else head_of(line)
        level = 2 if self.block else 0
        if line.strip().startswith("infix"):
            self.begin(line.split()[-1], "infix", level)
        elif names and indent == level and self.begins(names[0]):
            self.begin(names[0], kind, level)
        elif self.current is None:
            raise SystemExit(f"believed: {self.path}: what declares this line? {line}")
        elif not self.open and indent == level:
            self.current = self.definitions.get(line.split()[0], self.current)
        elif names and self.current.kind in ("record", "data") and indent == level + 2:
            self.current.parts += names
        self.current.lines += 1 + self.comment
        self.current.code.append(line)
        self.comment, self.open = 0, self.open + depth_in(line)

    def begins(self, name):
        """Whether a head is a new definition's, and not the signature behind the line of its operator."""
        return self.current is None or self.current.kind != "infix" or self.current.name != name

    def begin(self, name, kind, level):
        self.current = Definition(name, kind, level, self.block)
        for part in filter(None, name.split("◌")):
            self.definitions[part] = self.current

    def where(self, name):
        """The definition in which a name stands: its own, or that of the data type that has it as a constructor."""
        if name in self.definitions:
            return self.definitions[name]
        return next((one for one in self.definitions.values() if one.kind == "data" and name in one.parts), None)
