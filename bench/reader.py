"""A second reader of the script language, written from docs/SCRIPT.md alone: it names the first line outside the language."""
import re

NAME = re.compile(rb"[A-Za-z0-9._-]{1,24}")
NUMBER = re.compile(rb"0|[1-9][0-9]*")
MODES = (b"ir", b"iw", b"r", b"u", b"riw", b"w")
PAGE_MODES = (b"r", b"u", b"w")
CHOICES = (b"fail", b"wait")
MOST_LINES = 200_000


class Outside(Exception):
    """The line is outside the language."""


def require(holds):
    if not holds:
        raise Outside


def number(word, least, most):
    require(NUMBER.fullmatch(word) and least <= int(word) <= most)
    return int(word)


def name(word):
    require(NAME.fullmatch(word))
    return word


def names(word):
    """A list of names: `-` is the empty one."""
    if word != b"-":
        parts = word.split(b",")
        require(len(parts) <= 4)
        for part in parts:
            name(part)


def without_choice(words, counts):
    """The words before a last `fail` or `wait`, of which there are as many as one of `counts`."""
    if len(words) - 1 in counts and words[-1] in CHOICES:
        words = words[:-1]
    require(len(words) in counts)
    return words


class Reader:
    """What the lines so far have declared and bound."""

    def __init__(self):
        self.servers = None
        self.principals = set()
        self.words = set()
        self.has_client_line = False

    def server(self, word):
        return number(word, 1, self.servers)

    def file(self, word):
        name(word)
        if re.fullmatch(rb"[0-9]+\.[0-9]+\.[0-9]+", word):
            server, epoch, counter = word.split(b".")
            self.server(server)
            number(epoch, 0, 2**32 - 1)
            number(counter, 0, 2**32 - 1)
        else:
            require(word in self.words)

    def run(self, first, count):
        number(first, 0, 2**32 - 1)
        number(count, 1, 255)

    def client(self, word):
        require(number(word, 1, 16) in self.principals)

    # Lines of the run

    def declare(self, words):
        require(words[0] == b"servers" and len(words) == 2)
        self.servers = number(words[1], 1, 8)

    def volume(self, server, home, area):
        require(not self.has_client_line)
        self.server(server)
        number(home, 512, 65536)
        number(area, 64, 4096)

    def principal(self, client, principal):
        require(not self.has_client_line)
        client = number(client, 1, 16)
        require(client not in self.principals)
        name(principal)
        self.principals.add(client)

    def patience(self, count):
        number(count, 1, 1000)

    def auto(self, switch):
        require(switch in (b"on", b"off"))

    def pair(self, sender, receiver):
        self.server(sender)
        self.server(receiver)

    def event(self, server):
        self.server(server)

    def timeout(self, server, client):
        self.server(server)
        self.client(client)

    def stop(self, server, calls):
        self.server(server)
        number(calls, 0, 2**32 - 1)

    def restart(self, server, pick):
        self.server(server)
        number(pick, 0, 2**64 - 1)

    def settle(self):
        pass

    RUN = {
        b"volume": (volume, 3), b"client": (principal, 2), b"patience": (patience, 1), b"auto": (auto, 1),
        b"carry": (pair, 2), b"lose": (pair, 2), b"again": (pair, 2), b"tick": (event, 1), b"force": (event, 1),
        b"timeout": (timeout, 2), b"stop": (stop, 2), b"restart": (restart, 2), b"settle": (settle, 0),
    }

    # Lines of a client

    def begin(self, words):
        require(len(words) == 1)
        self.server(words[0])

    def create(self, words):
        require(4 <= len(words) <= 7)
        server, word, owner, size, *rest = words
        if len(rest) in (1, 3):
            require(rest.pop() in CHOICES)
        for it in rest:
            names(it)
        self.server(server)
        name(owner)
        number(size, 0, 2**32 - 1)
        require(not re.fullmatch(rb"[0-9]+\.[0-9]+\.[0-9]+", name(word)))
        self.words.add(word)

    def open_file(self, words):
        words = without_choice(words, (3,))
        self.file(words[0])
        require(words[1] in (b"read", b"change") and words[2] in MODES)

    def close(self, words):
        require(len(words) == 1)
        self.file(words[0])

    def delete(self, words):
        self.file(without_choice(words, (1,))[0])

    def read(self, words):
        require(3 <= len(words) <= 5)
        rest = words[3:]
        if rest and rest[-1] in CHOICES:
            rest.pop()
        require(len(rest) <= 1 and all(it in PAGE_MODES for it in rest))
        self.file(words[0])
        self.run(words[1], words[2])

    def write(self, words):
        words = without_choice(words, (4,))
        self.file(words[0])
        self.run(words[1], words[2])
        require(re.fullmatch(rb"[\x21-\x7e]{1,64}", words[3]))

    def lock(self, words):
        words = without_choice(words, (4,))
        self.file(words[0])
        self.run(words[1], words[2])
        require(words[3] in PAGE_MODES)

    def size(self, words):
        words = without_choice(words, (2,))
        self.file(words[0])
        number(words[1], 0, 2**32 - 1)

    def props(self, words):
        self.close(words)

    def change(self, words):
        words = without_choice(words, (3,))
        self.file(words[0])
        take = {
            b"owner": name, b"name": name, b"read": names, b"modify": names,
            b"type": lambda word: number(word, 0, 2**16 - 1), b"bytes": lambda word: number(word, 0, 2**64 - 1),
        }
        require(words[1] in take)
        take[words[1]](words[2])

    def owner(self, words):
        words = without_choice(words, (2,))
        self.server(words[0])
        name(words[1])

    def mkowner(self, words):
        words = without_choice(words, (4,))
        self.server(words[0])
        name(words[1])
        number(words[2], 0, 2**32 - 1)
        names(words[3])

    def quota(self, words):
        words = without_choice(words, (3,))
        self.server(words[0])
        name(words[1])
        number(words[2], 0, 2**32 - 1)

    def alone(self, words):
        require(not words)

    def raw(self, words):
        require(len(words) == 2)
        self.server(words[0])
        require(re.fullmatch(rb"([0-9a-f]{2})+", words[1]))

    OF_CLIENT = {
        b"begin": begin, b"create": create, b"open": open_file, b"close": close, b"delete": delete, b"read": read, b"write": write,
        b"lock": lock, b"size": size, b"props": props, b"change": change, b"owner": owner, b"mkowner": mkowner, b"quota": quota,
        b"commit": alone, b"abort": alone, b"outcome": alone, b"collect": alone, b"repeat": alone, b"old": alone, b"raw": raw,
    }

    def take(self, line):
        """Takes a line, or raises Outside."""
        require(len(line) <= 1024 and all(byte < 0x80 for byte in line))
        if not line or line.startswith(b"#"):
            return
        require(not line.startswith(b" ") and not line.endswith(b" "))
        words = re.split(rb" +", line)
        if self.servers is None:
            self.declare(words)
        elif words[0] in self.RUN:
            take, count = self.RUN[words[0]]
            require(len(words) == count + 1)
            take(self, *words[1:])
        else:
            self.client(words[0])
            require(len(words) > 1 and words[1] in self.OF_CLIENT)
            self.OF_CLIENT[words[1]](self, words[2:])
            self.has_client_line = True


def lines_of(script):
    lines = script.split(b"\n")
    if lines[-1] == b"":
        lines.pop()
    return [line[:-1] if line.endswith(b"\r") else line for line in lines]


def first_outside(script):
    """The number of the first line outside the language; of a script without `servers` that after its last; None for one inside."""
    reader, lines = Reader(), lines_of(script)
    for at, line in enumerate(lines, 1):
        try:
            reader.take(line)
        except Outside:
            return at
    return len(lines) + 1 if reader.servers is None else None
