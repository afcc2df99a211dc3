"""What a journal says of a run, for tools/varn_top.py: the lookups with their answers, the ages of what was given, and what bans,
purges and the room took out of the cache. The lines are those of crates/journal_text.

The objects are followed as the cache's law has it (crates/cache_law/specs), with one exception: patterns of bans are searched by
Python, whose patterns are not quite those of the program. `strange_hits` counts where that shows.
"""
import collections
import heapq
import re

FIRST = "varn 1 "
WORD = re.compile(r'"(?:[^"\\]|\\.)*"|[^ ]+')
ESCAPE = re.compile(r"\\(x[0-9a-f]{2}|[0-7]{3}|.)")
ESCAPED = {"n": "\n", "r": "\r", "t": "\t", '"': '"', "\\": "\\"}
GIVEN = {"hit": "hit", "grace": "grace", "miss": "miss", "hitmiss": "pass", "hitpass": "pass", "wait": "wait"}
UNITS = {"ms": 1, "s": 1000, "m": 60_000, "h": 3_600_000, "d": 86_400_000, "w": 604_800_000, "y": 31_536_000_000}
TESTS = {
    "==": lambda a, b: a == b,
    "!=": lambda a, b: a != b,
    "<": lambda a, b: a < b,
    "<=": lambda a, b: a <= b,
    ">": lambda a, b: a > b,
    ">=": lambda a, b: a >= b,
}


def value(word):
    """The text that a word stands for, a character for each byte."""
    if not word.startswith('"'):
        return word
    return ESCAPE.sub(lambda it: ESCAPED.get(it[1]) or chr(int(it[1].lstrip("x"), 16 if it[1][0] == "x" else 8)), word[1:-1])


class Words:
    """The words of a line, one behind another."""

    def __init__(self, line):
        self.left = collections.deque(WORD.findall(line))

    def text(self):
        return value(self.left.popleft())

    def number(self):
        return int(self.left.popleft())

    def maybe(self):
        word = self.left.popleft()
        return None if word == "-" else int(word)

    def texts(self):
        return tuple(self.text() for _ in range(self.number()))

    def pairs(self):
        return [(self.text(), self.text()) for _ in range(self.number())]

    def vary(self):
        """Whether a response varies by more than fields, and the fields with their values."""
        count = self.number()
        always = count > 0 and self.left[0] == "*"
        if always:
            self.left.popleft()
        return always, [(self.text(), self.texts()) for _ in range(count - always)]


class Stored:
    """An object as its insertion has it."""

    def __init__(self, words, number):
        self.number, self.kind, self.key = number, words.text(), words.texts()
        self.varies_always, self.vary = words.vary()
        self.status = words.text()
        words.text()
        self.fields, body = words.pairs(), words.text()
        self.origin, self.ttl, self.grace, self.keep = (words.number() for _ in range(4))
        self.xkeys, self.tested = words.texts(), 0
        own = len(body) + sum(4 + len(name) + len(said) for name, said in self.fields)
        self.size = 512 + sum(map(len, self.key)) + own

    def end(self):
        return self.origin + self.ttl + self.grace + self.keep

    def is_chosen_by(self, fields):
        def values(name):
            return tuple(said.strip(" \t") for other, said in fields if other.lower() == name.lower())

        return not self.varies_always and all(values(name) == tuple(it.strip(" \t") for it in said) for name, said in self.vary)


def first_of(fields, name):
    return next((said for other, said in fields if other.lower() == name.lower()), None)


class Ban:
    """A ban with what it took out."""

    def __init__(self, words, moment):
        self.words, self.moment, self.removed = words, moment, 0
        self.conditions = [words[at : at + 3] for at in range(0, len(words), 4)]
        self.on_objects = all(field.startswith("obj.") for field, _, _ in self.conditions)

    def matches(self, stored, url=None, fields=()):
        return all(self.holds(stored, url, fields, *condition) for condition in self.conditions)

    def holds(self, stored, url, fields, field, operator, argument):
        times = {
            "obj.ttl": stored.origin + stored.ttl - self.moment,
            "obj.age": self.moment - stored.origin,
            "obj.grace": stored.grace,
            "obj.keep": stored.keep,
        }
        if field in times:
            count, unit = re.fullmatch(r"([0-9.]+)([a-z]+)", argument).groups()
            return TESTS[operator](times[field], int(float(count) * UNITS[unit]))
        texts = {"req.url": url, "obj.status": stored.status}
        found = texts[field] if field in texts else first_of(fields if field.startswith("req.") else stored.fields, field[9:])
        if operator in ("==", "!="):
            return (found == argument) == (operator == "==")
        try:
            matched = found is not None and re.search(argument, found) is not None
        except re.error:
            matched = False
        return matched == (operator == "~")


class Part:
    """What came in some stretch of time."""

    def __init__(self):
        self.lookups, self.removed, self.ages = collections.Counter(), collections.Counter(), []
        self.begun, self.stored = 0, 0

    def given_share(self):
        """The share of lookups that were given an object, or None where there was none; one that waits looks up again."""
        told = sum(count for name, count in self.lookups.items() if name != "wait")
        return (self.lookups["hit"] + self.lookups["grace"]) / told if told else None

    def age_at(self, share):
        ordered = sorted(self.ages)
        return ordered[min(len(ordered) - 1, int(share * len(ordered)))] if ordered else None


class Journal:
    """A run, as its journal tells it: `parts` has a Part for each second in which something came."""

    def __init__(self):
        self.parts, self.whole = collections.defaultdict(Part), Part()
        self.objects = collections.OrderedDict()
        self.by_key, self.ends = collections.defaultdict(list), []
        self.request_bans, self.bans = [], []
        self.asked, self.missed = collections.Counter(), collections.Counter()
        self.room = self.size = self.most = self.entries = self.strange = self.strange_hits = self.segments = 0
        self.levels = {}

    def read(self, lines):
        for line in lines:
            line = line.rstrip("\n")
            try:
                self.line(line)
            except (ValueError, IndexError, AttributeError, KeyError):
                self.strange += 1
        return self

    def line(self, line):
        if line.startswith("e "):
            self.entry(Words(line))
        elif line.startswith(FIRST):
            self.room = int(line.split(" ", 3)[2])
        elif line in ("cut", "close"):
            self.segments += 1
        else:
            self.strange += 1

    def entry(self, words):
        words.text()
        words.number()
        moment, call = words.number(), words.text()
        self.now = moment // 1000
        self.expire(moment)
        getattr(self, "do_" + call, lambda *_: None)(words, moment)
        self.entries += 1
        self.most = max(self.most, len(self.objects))
        self.levels[self.now] = (len(self.objects), self.size)

    def reply(self, words):
        """The reply's words, behind the `=`."""
        while words.left.popleft() != "=":
            pass
        return words.text()

    def count(self, change):
        change(self.whole)
        change(self.parts[self.now])

    # ---- objects that come and go

    def put(self, stored):
        self.objects[stored.number] = stored
        self.by_key[stored.key].insert(0, stored)
        heapq.heappush(self.ends, (stored.end(), stored.number))
        self.size += stored.size

    def remove(self, stored, why):
        del self.objects[stored.number]
        self.by_key[stored.key].remove(stored)
        self.size -= stored.size
        if why:
            self.count(lambda part: part.removed.update([why]))

    def expire(self, moment):
        while self.ends and self.ends[0][0] <= moment:
            stored = self.objects.get(heapq.heappop(self.ends)[1])
            if stored and stored.end() <= moment:
                self.remove(stored, "time")

    # ---- calls

    def do_begin(self, words, _):
        if self.reply(words) == "began":
            self.count(lambda part: setattr(part, "begun", part.begun + 1))

    def do_lookup(self, words, moment):
        key, url, fields = words.texts(), words.text(), words.pairs()
        always_miss, _, _ = words.number(), words.number(), words.number()
        said = self.reply(words)
        if said not in GIVEN:
            return
        if not always_miss:
            self.test(key, url, fields)
        self.count(lambda part: part.lookups.update([GIVEN[said]]))
        if said != "wait":
            self.asked[url] += 1
            self.missed[url] += said not in ("hit", "grace")
        if said in ("hit", "grace"):
            self.give(words.number(), moment)
        elif said in ("hitmiss", "hitpass"):
            self.use_marker(key, fields)

    def test(self, key, url, fields):
        """Tests the objects of a key on the bans that wait for them."""
        for stored in list(self.by_key[key]):
            ban = next((it for it in self.request_bans[stored.tested :] if it.matches(stored, url, fields)), None)
            if ban:
                ban.removed += 1
                self.remove(stored, "bans")
            elif stored.origin + stored.ttl > self.now * 1000 and stored.is_chosen_by(fields):
                stored.tested = len(self.request_bans)
                break
            else:
                stored.tested = len(self.request_bans)

    def give(self, number, moment):
        stored = self.objects.get(number)
        if not stored:
            self.strange_hits += 1
            return
        self.objects.move_to_end(number)
        self.count(lambda part: part.ages.append(max(0, moment - stored.origin) / 1000))

    def use_marker(self, key, fields):
        for stored in self.by_key[key]:
            if stored.kind != "o" and stored.is_chosen_by(fields):
                self.objects.move_to_end(stored.number)
                return

    def do_insert(self, words, moment):
        stored = Stored(words, words.number())
        stale = words.maybe()
        if self.reply(words) != "stored":
            return
        stored.tested = len(self.request_bans)
        old = self.objects.get(stale)
        if old:
            stored.tested = old.tested
            self.remove(old, None)
        while self.objects and self.size + stored.size > self.room:
            self.remove(next(iter(self.objects.values())), "room")
        self.put(stored)
        self.count(lambda part: setattr(part, "stored", part.stored + 1))

    def do_ban(self, words, moment):
        ban = Ban(words.texts(), moment)
        self.bans.append(ban)
        if not ban.on_objects:
            self.request_bans.append(ban)
            return
        for stored in list(self.objects.values()):
            if ban.matches(stored):
                ban.removed += 1
                self.remove(stored, "bans")

    def do_purge(self, words, _):
        for stored in list(self.by_key[words.texts()]):
            self.remove(stored, "purges")

    def do_xkey(self, words, moment):
        keys, soft = set(words.texts()), words.number()
        for stored in list(self.objects.values()):
            if keys.isdisjoint(stored.xkeys):
                continue
            if not soft:
                self.remove(stored, "purges")
            elif stored.kind == "o":
                stored.ttl = min(stored.ttl, moment - stored.origin)
                heapq.heappush(self.ends, (stored.end(), stored.number))
