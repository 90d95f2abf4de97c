#!/usr/bin/env python3
"""The statements of a source, as docs/language.md has them: where each stands, which shared variables it can read and
write, which synchronization it is, and which statements can come after it. tools/recording.py looks at these.

It is written for sources that are accepted, and refuses others only where it cannot go on: what is a source of the
language is told by `./ppd show`. The numbers of statements are those of `show` and `deps`."""
import re
from dataclasses import dataclass, field

TOKEN = re.compile(
    r"(?P<skip>[\t-\r ]+|//[^\n]*|/\*.*?\*/)|(?P<name>[A-Za-z_][A-Za-z_0-9]*)|(?P<number>[0-9]+)"
    r"|(?P<mark>\|\||&&|[=!<>+-]=|\+\+|--|[<>+*/%!=(){}\[\];,-])",
    re.DOTALL,
)


class NotRead(Exception):
    """A source that this reader cannot follow, with the place."""


@dataclass
class Token:
    kind: str
    text: str
    line: int
    column: int
    start: int
    end: int


@dataclass
class Access:
    """A shared variable, and the element where the source has it as a number."""

    name: str
    index: int | None = None

    def can_be(self, cell):
        name, index = cell
        return self.name == name and (self.index is None or self.index == index)


@dataclass
class Statement:
    kind: str
    line: int
    column: int
    text: str
    reads: list = field(default_factory=list)
    writes: list = field(default_factory=list)
    sync: tuple | None = None
    call: str | None = None
    next: list = field(default_factory=list)


@dataclass
class Body:
    kind: str
    name: str
    first: int = 0
    end: int = 0
    exits: list = field(default_factory=list)


def tokens_of(text):
    tokens, at, line, line_start = [], 0, 1, 0
    while at < len(text):
        found = TOKEN.match(text, at)
        if not found:
            raise NotRead(f"{line}:{at - line_start + 1}")
        if found.lastgroup != "skip":
            tokens.append(Token(found.lastgroup, found.group(), line, at - line_start + 1, at, found.end()))
        newlines = found.group().count("\n")
        if newlines:
            line += newlines
            line_start = at + found.group().rindex("\n") + 1
        at = found.end()
    tokens.append(Token("end", "", line, at - line_start + 1, at, at))
    return tokens


class Source:
    """A source: its names in the order of their declarations, its bodies, functions first, and all their statements."""

    def __init__(self, source):
        self.text = source.decode("latin-1")
        self.tokens = tokens_of(self.text)
        self.at = 0
        self.shared = {}
        self.semaphores = {}
        self.channels = {}
        self.functions = []
        self.processes = []
        self.statements = []
        self.read_declarations()
        self.by_name = {body.name: body for body in self.functions}
        for body in self.functions + self.processes:
            self.read_body(body)

    # tokens

    def peek(self, ahead=0):
        return self.tokens[min(self.at + ahead, len(self.tokens) - 1)]

    def take(self, text=None):
        token = self.peek()
        if token.kind == "end" or text is not None and token.text != text:
            raise NotRead(f"{token.line}:{token.column}")
        self.at += 1
        return token

    def takes(self, text):
        if self.peek().text == text and self.peek().kind != "end":
            self.at += 1
            return True
        return False

    # what the whole source declares

    def read_declarations(self):
        while self.peek().kind != "end":
            word = self.take().text
            if word == "shared":
                self.take("int")
                self.read_items(self.shared_item)
            elif word == "sem":
                self.read_items(self.semaphore_item)
            elif word == "chan":
                self.read_items(self.channel_item)
            elif word in ("int", "void", "process"):
                name = self.take().text
                (self.processes if word == "process" else self.functions).append(Body(word, name, self.at))
                while self.peek().text != "{":
                    self.take()
                self.skip_block()
            else:
                self.at -= 1
                self.take("")

    def read_items(self, item):
        item()
        while self.takes(","):
            item()
        self.take(";")

    def shared_item(self):
        name, length = self.take().text, None
        if self.takes("["):
            length = int(self.take().text)
            self.take("]")
        elif self.takes("="):
            self.takes("-")
            self.take()
        self.shared[name] = length

    def semaphore_item(self):
        name = self.take().text
        self.semaphores[name] = int(self.take().text) if self.takes("=") else 0

    def channel_item(self):
        name = self.take().text
        self.take("[")
        self.channels[name] = int(self.take().text)
        self.take("]")

    def skip_block(self):
        depth = 0
        while True:
            text = self.take().text
            depth += (text == "{") - (text == "}")
            if depth == 0:
                return

    def cells(self):
        """The shared cells in order, each a name and an index or none."""
        found = []
        for name, length in self.shared.items():
            found += [(name, None)] if length is None else [(name, index) for index in range(length)]
        return found

    # bodies

    def read_body(self, body):
        self.at, body.first = body.first, len(self.statements)
        self.body, self.loose, self.scopes = body, [], [{}]
        if body.kind != "process":
            self.take("(")
            while not self.takes(")"):
                token = self.take()
                if token.kind == "name" and token.text not in ("int", "void"):
                    self.scopes[-1][token.text] = None
        self.take("{")
        while self.peek().text != "}":
            self.statement()
        brace = self.take("}")
        if body.kind == "process":
            self.add("end", brace)
        elif body.kind == "void" and not (len(self.statements) > body.first and self.statements[-1].kind == "return"):
            self.add("return", brace)
        body.end = len(self.statements)
        body.exits = [n for n in range(body.first, body.end) if self.statements[n].kind == "return"]

    def text_from(self, token):
        """The text of a statement that was read, in one line."""
        end = max(token.end, self.tokens[self.at - 1].end)
        text, after = self.text[token.start : end], self.peek().text
        if after == ";" or after == ")" and text.count("(") > text.count(")"):
            text += after
        return " ".join(text.split())

    def add(self, kind, token, **rest):
        number = len(self.statements)
        self.statements.append(Statement(kind, token.line, token.column, self.text_from(token), **rest))
        for before in self.loose:
            self.statements[before].next.append(number)
        self.loose = [] if kind in ("return", "end") else [number]
        return number

    def local(self, name):
        """Whether a name is one of this body here: `scalar`, `array` or nothing."""
        for scope in reversed(self.scopes):
            if name in scope:
                return "scalar" if scope[name] is None else "array"
        return ""

    def value(self, *ends):
        """What is read by the tokens up to one of these, outside all brackets."""
        reads, depth = [], 0
        while depth or self.peek().text not in ends:
            token = self.take()
            depth += (token.text in "([") - (token.text in ")]")
            if token.kind == "name" and not self.local(token.text):
                reads.append(self.access(token.text))
        return reads

    def access(self, name):
        known = self.peek().text == "[" and self.peek(1).kind == "number" and self.peek(2).text == "]"
        return Access(name, int(self.peek(1).text) if known else None)

    def statement(self):
        token = self.peek()
        if token.text == "{":
            self.block()
        elif token.text == "if":
            self.branch()
        elif token.text == "while":
            self.take()
            self.take("(")
            self.loop(token, self.value(")"))
        elif token.text == "for":
            self.counted_loop()
        elif token.text == "int":
            self.take()
            self.read_items(self.local_item)
        elif token.text == "return":
            self.returned()
        elif token.text in ("P", "V", "send", "print", "assert"):
            self.primitive()
        elif not self.takes(";"):
            self.change(";")
            self.take(";")

    def block(self):
        self.take("{")
        self.scopes.append({})
        while not self.takes("}"):
            self.statement()
        self.scopes.pop()

    def branch(self):
        token = self.take("if")
        self.take("(")
        test = self.add("test", token, reads=self.value(")"))
        self.take(")")
        self.statement()
        if self.takes("else"):
            after, self.loose = self.loose, [test]
            self.statement()
            self.loose = after + self.loose
        else:
            self.loose = self.loose + [test]

    def loop(self, token, reads, step=None):
        test = self.add("test", token, reads=reads)
        self.take(")")
        self.statement()
        if step is not None:
            after, self.at = self.at, step
            if self.peek().text != ")":
                self.change(")")
            self.at = after
        for before in self.loose:
            self.statements[before].next.append(test)
        self.loose = [test]

    def counted_loop(self):
        token = self.take("for")
        self.take("(")
        self.scopes.append({})
        if self.takes("int"):
            self.local_item()
        elif self.peek().text != ";":
            self.change(";")
        self.take(";")
        reads = self.value(";")
        self.take(";")
        step, depth = self.at, 0
        while depth or self.peek().text != ")":
            depth += (self.peek().text == "(") - (self.take().text == ")")
        self.loop(token, reads, step)
        self.scopes.pop()

    def local_item(self):
        token = self.take()
        if self.takes("["):
            self.scopes[-1][token.text] = int(self.take().text)
            self.take("]")
            self.add("zero", token)
            return
        self.scopes[-1][token.text] = None
        if self.takes("="):
            self.stored(token, token.text, [], [], "scalar")
        else:
            self.add("set", token)

    def returned(self):
        token = self.take("return")
        if self.peek().kind == "name" and self.peek(1).text == "(":
            self.called(token)
            reads = []
        else:
            reads = self.value(";")
        self.take(";")
        self.add("return", token, reads=reads)

    def primitive(self):
        token = self.take()
        kind = token.text
        self.take("(")
        if kind in ("P", "V", "send"):
            name = self.take().text
            reads = self.value(")") if self.takes(",") else []
            self.add(f"{kind} {name}", token, reads=reads, sync=(kind, name))
        else:
            self.add(kind, token, reads=self.value(")"))
        self.take(")")
        self.take(";")

    def called(self, token):
        name = self.take().text
        self.take("(")
        reads = []
        while not self.takes(")"):
            reads += self.value(",", ")")
            self.takes(",")
        return self.add(f"call {name}", token, reads=reads, call=name)

    def change(self, end):
        """An assignment or a call, up to its end, which is left."""
        token = self.peek()
        if token.kind != "name":
            raise NotRead(f"{token.line}:{token.column}")
        if self.peek(1).text == "(":
            self.called(token)
            return
        name = self.take().text
        kind = self.local(name)
        place = [] if kind else [self.access(name)]
        index = []
        if self.takes("["):
            index = self.value("]")
            self.take("]")
        mark = self.take().text
        if mark == "=":
            self.stored(token, name, place, index, kind)
        else:
            reads = place + index if mark in ("++", "--") else place + index + self.value(end)
            self.add("set", token, reads=reads, writes=place)

    def stored(self, token, name, place, index, kind):
        """What follows `=`: the value of an expression, of a call or of a receive."""
        is_receive = self.peek().text == "recv"
        if not is_receive and not (self.peek().kind == "name" and self.peek(1).text == "("):
            self.add("set", token, reads=index + self.value(";", ",", ")"), writes=place)
            return
        if is_receive:
            self.take()
            self.take("(")
            channel = self.take().text
            self.take(")")
            self.add(f"recv {channel}", token, sync=("recv", channel))
        else:
            self.called(token)
        if kind != "scalar":
            self.add("set", token, reads=index, writes=place)

    # which statements can run in an internal edge

    def bodies_from(self, process):
        """The numbers of all statements that a process can come to."""
        met, more = [], [process]
        while more:
            body = more.pop()
            if body in met:
                continue
            met.append(body)
            names = {self.statements[n].call for n in range(body.first, body.end)} - {None}
            more += [self.by_name[name] for name in names if name in self.by_name]
        return met

    def between(self, process, begin, end):
        """The statements that a process can do after one synchronization and through the next. `begin` and `end` are
        pairs of kind and object; `begin` is none at the start. `end` may also be `ended`, `blocked`, or none, which is
        any place. Where a function was called from plays no part, so there may be some too many."""
        if begin and begin[0] == "send" and self.channels[begin[1]] == 0:
            # an offer, which waits for its completion: nothing is done in between
            return []
        if begin and begin[0] == "done":
            begin = ("send", begin[1])
        bodies = self.bodies_from(process)
        numbers = [n for body in bodies for n in range(body.first, body.end)]
        after = {n: list(self.statements[n].next) for n in numbers}
        for n in numbers:
            body = self.by_name.get(self.statements[n].call)
            if body:
                for leaving in body.exits:
                    after[leaving] = after[leaving] + self.statements[n].next
                after[n] = [body.first]
        ways_back = {n: [] for n in numbers}
        for n in numbers:
            for then in after[n]:
                ways_back[then].append(n)
        starts = [process.first] if begin is None else [m for n in numbers if self.statements[n].sync == begin for m in after[n]]
        forward = self.reach(starts, lambda n: [] if self.statements[n].sync else after[n])
        if end is None:
            return sorted(forward)
        if end == "ended":
            goals = [n for n in numbers if self.statements[n].kind == "end"]
        elif end == "blocked":
            goals = [n for n in numbers if self.statements[n].sync]
        else:
            goals = [n for n in numbers if self.statements[n].sync == end]
        backward = self.reach(goals, lambda n: [m for m in ways_back[n] if not self.statements[m].sync])
        return sorted(forward & backward)

    @staticmethod
    def reach(starts, then):
        met, more = set(), list(starts)
        while more:
            number = more.pop()
            if number not in met:
                met.add(number)
                more += then(number)
        return met
