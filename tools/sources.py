"""What a file of the tree declares, antt or Rattle, with the lines that each declaration takes. For tools/promises and tools/believed."""
import itertools
import re

MARKS = {"pub", "abbrev", "unfoldable", "pattern", "axiom"}
OPENERS = {"(": ")", "{": "}", "[": "]"}
CLOSERS = set(OPENERS.values())


class Token:
    """A name, a mark or a quoted text; `tight` where no space stands before it."""

    def __init__(self, text, line, column, tight):
        self.text, self.line, self.column, self.tight = text, line, column, tight


class NotRead(Exception):
    """A form of text that this reader does not know."""


# ---- antt

# a name is a run of anything but spaces and a few marks
TOKEN = re.compile(r'(?P<skipped>\s+|--[^\n]*|\{-.*?-\})|"(?:\\.|[^"\\])*"|«[^»]*»|[(){}.;,@]|[^\s(){}.;,@"«»]+', re.DOTALL)
FIXITIES = {"infix", "infixl", "infixr"}


def antt_tokens(text):
    """The tokens of an antt text, without spaces and comments."""
    tokens, at, line, begins, tight = [], 0, 1, 0, False
    while at < len(text):
        found = TOKEN.match(text, at)
        if not found:
            raise NotRead(f"line {line}: no end of what begins with {text[at]}")
        word, tight_before, tight = found.group(), tight, found["skipped"] is None
        if tight:
            tokens.append(Token(word, line, at - begins, tight_before))
        if "\n" in word:
            line, begins = line + word.count("\n"), at + word.rindex("\n") + 1
        at = found.end()
    return tokens


class Group:
    """What stands in a pair of brackets."""

    def __init__(self, opener, nodes):
        self.opener, self.nodes = opener, nodes


def tree(tokens):
    """Tokens with each pair of brackets made a group."""
    stack = [Group(None, [])]
    for token in tokens:
        if token.text in OPENERS:
            stack.append(Group(token.text, []))
        elif token.text in CLOSERS:
            if len(stack) < 2 or OPENERS[stack[-1].opener] != token.text:
                raise NotRead(f"line {token.line}: a {token.text} that nothing opens")
            closed = stack.pop()
            stack[-1].nodes.append(closed)
        else:
            stack[-1].nodes.append(token)
    if len(stack) > 1:
        raise NotRead(f"a {stack[-1].opener} that nothing closes")
    return stack[0].nodes


def items(tokens):
    """A block's tokens, cut where a line begins at the block's own column and no bracket is open."""
    cut, depth, last = [], 0, 0
    for token in tokens:
        if depth == 0 and token.line > last and token.column == tokens[0].column:
            cut.append([])
        cut[-1].append(token)
        depth += (token.text in OPENERS) - (token.text in CLOSERS)
        last = token.line
    return cut


def parts(name):
    """The parts of an operator's name: `◌then◌` is written `then`."""
    return [part for part in name.split("◌") if part] if "◌" in name else []


class Declaration:
    """A definition with its clauses, a record with its fields, or a data type with its constructors."""

    def __init__(self, kind, name, public, sections, head, item):
        self.kind, self.name, self.public = kind, name, public
        self.sections = sections  # the heads of the `module _ .. where` around it
        self.head = head  # the signature, or what stands before `where`
        self.clauses = []  # of a definition
        self.members = []  # the names and tokens of fields or constructors
        self.items = [item]  # all of it, the signature first
        self.file = None

    def lines(self):
        return {token.line for item in self.items for token in item}

    def statement_lines(self):
        return {token.line for token in self.items[0]}

    def names(self):
        return {self.name, *(name for names, _ in self.members for name in names)}


class Use:
    """One name or module that a header brings: `path` as a list of names, `name` as the file calls it."""

    def __init__(self, path, name, module, public):
        self.path, self.name, self.module, self.public = path, name, module, public


class AnttFile:
    """A file's header and declarations, in order."""

    def __init__(self, text):
        self.text = text.splitlines()
        self.uses, self.mods, self.declarations, self._fixities = [], [], [], []
        self._block(antt_tokens(text), [])
        for item, operators in self._fixities:
            for declaration in self.declarations:
                if operators & declaration.names():
                    declaration.items.append(item)

    def names(self):
        """Every name that is declared: definitions, records, data types, fields and constructors."""
        return {name for declaration in self.declarations for name in declaration.names()}

    def _block(self, tokens, sections):
        here = []
        for item in items(tokens):
            rest = list(itertools.dropwhile(lambda token: token.text in MARKS, item))
            public = any(token.text == "pub" for token in item[: len(item) - len(rest)])
            first = rest[0].text
            if first == "use":
                self._use(rest[1:], public)
            elif first == "mod":
                self.mods.append(rest[1].text)
            elif first == "module":
                head, body = cut_at(rest, "where")
                self._block(body, sections + [head])
            elif first == "mutual":
                self._block(rest[1:], sections)
            elif first in FIXITIES:
                self._fixities.append((item, {token.text for token in rest[2:]}))
            elif first in ("record", "data"):
                head, body = cut_at(rest, "where")
                here.append(Declaration(first, rest[1].text, public, sections, head, item))
                here[-1].members = [member(part) for part in items(body) if part[0].text not in FIXITIES]
            elif signature(rest):
                here += [Declaration("definition", name, public, sections, rest, item) for name in signature(rest)]
            elif first not in ("open", "ruleset"):
                owner_of(item, here).items.append(item)
        self.declarations += here

    def _use(self, tokens, public):
        head, names = cut_at(tokens, "{")
        words = [token.text for token in head if token.text != "." and token.text != "package"]
        if "*" in words:
            raise NotRead(f"line {tokens[0].line}: a use of *")
        if not names:
            *path, name = words
            self.uses.append(Use(path[:-1] if "as" in path else words, name, True, public))
        for item in split(names[:-1], ","):
            *path, name = [token.text for token in item if token.text != "."]
            self.uses.append(Use(words + (path[:-1] if "as" in path else path + [name]), name, False, public))


def member(item):
    """The names and tokens of a field, of constructors, or of what a `deriving` makes."""
    tokens = [token for token in item if token.text not in MARKS]
    if tokens[0].text == "deriving":
        return [tokens[-1].text], []
    if not signature(tokens):
        raise NotRead(f"line {tokens[0].line}: neither a field nor a constructor")
    return signature(tokens), tokens


def owner_of(item, here):
    """The declaration that a clause or an `unfolding` line belongs to, the last one with the clause's name; a clause is noted there."""
    if item[0].text == "unfolding" and here:
        return here[-1]
    left = {token.text for token in cut_at(item, "=")[0]}
    for declaration in reversed(here):
        if declaration.kind == "definition" and (declaration.name in left or left.issuperset(parts(declaration.name) or [declaration.name])):
            declaration.clauses.append(item)
            return declaration
    raise NotRead(f"line {item[0].line}: a clause of nothing that is declared above")


def cut_at(tokens, word):
    """What stands before and behind the first such word outside brackets."""
    depth = 0
    for i, token in enumerate(tokens):
        if token.text == word and depth == 0:
            return tokens[:i], tokens[i + 1 :]
        depth += (token.text in OPENERS) - (token.text in CLOSERS)
    return tokens, []


def split(nodes, word):
    """Nodes or tokens, cut at each such word."""
    cut = [[]]
    for node in nodes:
        if isinstance(node, Token) and node.text == word:
            cut.append([])
        else:
            cut[-1].append(node)
    return [part for part in cut if part]


def signature(tokens):
    """The names before the colon where this is a signature: names, perhaps levels in braces, a colon."""
    names, depth = [], 0
    for token in tokens:
        if token.text in CLOSERS:
            depth -= 1
        elif token.text in OPENERS:
            if token.text != "{" or not names:
                return []
            depth += 1
        elif depth == 0:
            if token.text == ":":
                return names
            if token.text in ".;,@=" or token.text in ("unfolding", "λ", "→"):
                return []
            names.append(token.text)
    return []


# ---- Rattle

RT_TEXT = re.compile(r'//[^\n]*|/\*.*?\*/|b?"(?:\\.|[^"\\])*"|b?\'(?:\\.[^\']*|[^\'\\])\'', re.DOTALL)
# an item begins a line; the "C" behind `extern` is quoted, and so made spaces
RT_ITEM = re.compile(
    r"^[ \t]*(?:#\[[^\]]*\]\s*)*(?P<public>pub\s+)?(?:unsafe\s+)?(?:extern\s+)?(?P<kind>fn|struct|enum|const|static|type|mod)\s+(?P<name>\w+)", re.MULTILINE
)


def bare(text):
    """The text with comments and quoted texts made spaces, line by line as long as before."""
    return RT_TEXT.sub(lambda found: re.sub(r"[^\n]", " ", found.group()), text)


def is_derive(row):
    """Whether a line gives a type its derived impls, of which no statement speaks."""
    return row.strip().startswith("#[derive(")


def closing(text, at):
    """The place of the bracket that closes the one at this place."""
    depth = 0
    for i in range(at, len(text)):
        depth += (text[i] in "({[") - (text[i] in ")}]")
        if depth == 0:
            return i
    raise NotRead("a bracket that nothing closes")


class RtItem:
    """A struct, an enum or a constant; `text` is what stands behind its name, without comments."""

    def __init__(self, kind, name, text, lines):
        self.kind, self.name, self.text, self._lines = kind, name, text, lines
        self.file = None

    def lines(self):
        return self._lines


class RtFile:
    """A file's types and constants, what it imports (for contracts, `uses`), its names, and the clauses of its public functions' contracts."""

    def __init__(self, text):
        self.text = text.splitlines()
        self.types, self.imports, self.contracts, self._names = {}, {}, [], set()
        plain = bare(text)
        found = list(RT_ITEM.finditer(plain))
        for item in found:
            kind, name = item["kind"], item["name"]
            self._names.add(name)
            if kind in ("struct", "enum", "const", "static", "type"):
                self._type(plain, item, kind, name)
        functions = [item for item in found if item["kind"] == "fn"]
        for item, after in zip(functions, functions[1:] + [None]):
            if item["public"]:
                self._contract(plain, item.end(), after.start() if after else len(plain))
        ghosts = re.findall(r"^\s*ghost\s+(use\s[^;]*);", plain, re.MULTILINE)
        self.uses = AnttFile("\n".join(ghosts)).uses
        for used in re.findall(r"^\s*(?:pub\s+)?use\s+([^;]*);", plain, re.MULTILINE):
            *path, names = [word.strip() for word in used.split("::")]
            for name in names.strip("{} ").split(","):
                words = name.split()
                if words:
                    self.imports[words[-1]] = path + words[:1]

    def _type(self, plain, item, kind, name):
        # a struct or an enum ends at its brace, or at a semicolon; a constant at its semicolon
        at = item.end()
        while plain[at] not in "{;" or (kind in ("const", "static", "type") and plain[at] != ";"):
            at = closing(plain, at) + 1 if plain[at] in "([{" else at + 1
        end = closing(plain, at) if plain[at] == "{" else at
        first = plain.count("\n", 0, item.start()) + 1
        rows = plain.split("\n")
        while first > 1 and rows[first - 2].strip().startswith("#["):
            first -= 1
        last = plain.count("\n", 0, end) + 1
        lines = {row for row in range(first, last + 1) if rows[row - 1].strip() and not is_derive(rows[row - 1])}
        body = plain[item.end() : end + 1]
        self.types[name] = RtItem(kind, name, body, lines)
        if kind == "struct":
            self._names.update(re.findall(r"(\w+)\s*:(?!:)", body))
        if kind == "enum":
            self._names.update(self.variants(body))

    @staticmethod
    def variants(body):
        """The names of an enum's variants: the words that begin its parts."""
        inner, names, depth, fresh = body[body.index("{") + 1 : body.rindex("}")], [], 0, True
        for found in re.finditer(r"\w+|[^\w\s]", inner):
            word = found.group()
            if word in "({[":
                depth += 1
            elif word in ")}]":
                depth -= 1
            elif word == "," and depth == 0:
                fresh = True
            elif fresh and depth == 0 and word[0].isalpha():
                names.append(word)
                fresh = False
        return names

    def _contract(self, plain, begin, end):
        # a clause may have a name, and a star where it speaks of memory
        for clause in re.finditer(r"\b(?:requires|ensures)(?:\s*\*)?(?:\s+\w+)?\s*\{", plain[begin:end]):
            at = begin + clause.end() - 1
            self.contracts.append(plain[at + 1 : closing(plain, at)])

    def names(self):
        return self._names
