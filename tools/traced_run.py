"""The lines of a trace as events, with the choices that lead to them."""
import re

from antt_words import ATTRS, KINDS, address, call, flat, option, truth

CAUSES = {
    "size": "Size", "no_user": "NoUser", "essential": "Essential", "priority": "Priority", "priority_higher": "PriorityHigher",
    "access": "Access", "privileged": "Privileged", "k_oops": "KOops", "k_panic": "KPanic",
}
ERRNO = re.compile(r"E[A-Z]+$")
JOIN_CELL, FUTEX_CELL = 128, 129


class Run:
    """The events of trace lines, with the choices that lead to them."""

    def __init__(self, image):
        self.image = image
        self.events, self.choices = [], []
        self.line = {}  # the line of a script that a thread makes, while it makes one
        self.dropped = set()  # threads that made their call's drop
        self.ends = set()  # threads whose end isn't over: their drops may be skipped
        self.cuts = set()  # threads that were cut, or aborted themselves, and haven't ended
        self.cell = {}  # the cell in which a thread waits, or waited last

    def reply(self, word):
        if word == "void":
            return "Reply.Void"
        if word == "NULL":
            return "Reply.Null"
        if word.isdigit():
            return f"Reply.Num {word}"
        if ERRNO.match(word) and all(o["name"] != word for o in self.image.objects):
            return f"Reply.Fail Errno.{word}"
        return call("Reply.At", address(self.image.shown_address(word)))

    def verdict(self, word):
        return "None" if word == "ok" else f"Some Errno.{word}"

    def shown(self, text):
        return address(self.image.shown_address(text))

    def who(self, text):
        return f"thread {self.image.thread(text)}"

    def part(self, text):
        start, size, attr = text.split("/")
        return f"range {start} {size}", f"rights {ATTRS[attr]}"

    def woken(self, rest):
        woken = []
        for word, who, reply in zip(rest[0::3], rest[1::3], rest[2::3]):
            assert word == "wake"
            woken.append(f"({self.who(who)}, {self.reply(reply)})")
        return flat(woken)

    def answer(self, answer):
        return "Answer.Wait" if answer == "wait" else call("Answer.Now", self.reply(answer))

    def work(self, x, answer, *rest):
        return call("Act.Work", self.shown(x), self.answer(answer), self.woken(rest))

    def futex(self, what, a, *rest):
        if what == "wait":
            return call("Act.FutexWait", address(int(a, 16)), rest[0], self.answer(rest[1]))
        return call("Act.FutexWake", address(int(a, 16)), self.answer(rest[0]), self.woken(rest[1:]))

    def domain(self, what, d, *rest):
        number = str(self.image.index("domains", d))
        if what == "init":
            return call("Act.DomInit", number, self.reply(rest[0]))
        if what == "move":
            return call("Act.DomMove", number, self.who(rest[0]), self.reply(rest[1]))
        return call("Act.DomAdd" if what == "add" else "Act.DomRemove", number, *self.part(rest[0]), self.reply(rest[1]))

    def act(self, word, rest):
        """The act of a line, and the row that it chooses where it may choose."""
        a = rest
        fits = lambda said: truth(said == "ok")
        done = lambda said, kind: f"{kind}.Done" if said == "ok" else f"{kind}.Gone"
        if word == "begin":
            return call("Act.Begin", str(self.image.index("scripts", a[0])), a[1])
        if word == "check":
            kind = "None" if a[1] == "any" else f"Some Kind.{KINDS[a[1]]}"
            return call("Act.Check", self.shown(a[0]), kind, f"Want.{a[2].capitalize()}", self.verdict(a[3]))
        if word in ("load", "store"):
            return call(f"Act.{word.capitalize()}", address(int(a[0], 16)), a[1], a[2])
        if word == "exec":
            return call("Act.Fetch", address(int(a[0], 16)))
        if word == "fault":
            return call("Act.Fault", f"Access.{a[0].capitalize()}", address(int(a[1], 16)), a[2])
        if word in ("probe", "copyin", "copyout"):
            variant = {"probe": "Probe", "copyin": "CopyIn", "copyout": "CopyOut"}[word]
            return call(f"Act.{variant}", address(int(a[0], 16)), a[1], fits(a[2]))
        if word == "copystr":
            found = {"unreadable": "Found.Unreadable", "toolong": "Found.TooLong"}.get(a[1], f"Found.Length {a[1]}")
            return call("Act.CopyStr", address(int(a[0], 16)), found)
        if word == "erase":
            return call("Act.Erase", f"row {self.image.row(a[0])}")
        if word == "act":
            return self.work(*a)
        if word == "reply":
            return call("Act.Answered", self.reply(a[0]))
        if word == "grant":
            return call("Act.Grant", self.who(a[0]), self.shown(a[1]), done(a[2], "Given"))
        if word == "own":
            return call("Act.Own", self.who(a[0]), done(a[1], "Given"))
        if word == "inherit":
            return call("Act.Inherit", self.who(a[0]), self.shown(a[1]))
        if word == "drop":
            left = {"kept": "Kept", "gone": "Gone", "none": "NoPair"}[a[2]]
            return call("Act.DropPair", self.who(a[0]), self.shown(a[1]), f"Leftover.{left}")
        if word == "public":
            return call("Act.Publish", self.shown(a[0]), done(a[1], "Given"))
        if word == "setinit":
            said = {"ok": "SetSaid.Done", "gone": "SetSaid.Gone"}.get(a[1], f"SetSaid.Fail Errno.{a[1]}")
            return call("Act.SetInit", self.shown(a[0]), said)
        if word == "uninit":
            return call("Act.ClearInit", self.shown(a[0]))
        if word == "name":
            return call("Act.Named", self.who(a[0]))
        if word == "reserve":
            return call("Act.Reserve", f"Kind.{KINDS[a[0]]}", option(None if a[1] == "NULL" else self.shown(a[1])))
        if word == "born":
            return call("Act.Born", self.shown(a[0]))
        if word == "buffer":
            return call("Act.Buffer", a[0], fits(a[1]))
        if word == "unbuffer":
            return call("Act.Unbuffer", a[0])
        if word == "recycle":
            return call("Act.Recycle", self.shown(a[0]))
        if word == "domain":
            return self.domain(*a)
        if word == "start":
            return call("Act.Start", self.who(a[0]))
        if word == "fatal":
            cause = f"Cause.{CAUSES[a[1]]}" if a[1] in CAUSES else f"Cause.Refused Errno.{a[1]}"
            return call("Act.Fatal", a[0], cause)
        if word == "doom":
            return call("Act.Doom", f"thread {a[0]}")
        if word in ("arm", "tick"):
            return call(f"Act.{word.capitalize()}", a[0])
        if word == "timeout":
            return call("Act.TimedOut", self.who(a[0]))
        if word == "expire":
            return call("Act.Expire", self.shown(a[0]), self.woken(a[1:]))
        if word in ("abort", "suspend", "continue"):
            return call(f"Act.{word.capitalize()}", self.who(a[0]), truth(a[1] == "ok"))
        if word == "cut":
            return call("Act.Cut", self.who(a[0]))
        if word == "join":
            return call("Act.Join", self.who(a[0]), self.answer(a[1]))
        if word == "left":
            return call("Act.Left", self.who(a[0]), self.woken(a[1:]))
        if word == "futex":
            return self.futex(*a)
        return {"resume": "Act.Resume", "user": "Act.EnterUser", "exit": "Act.Exit", "killed": "Act.Killed"}[word]

    def choice(self, t, word, rest):
        """The row and the way of a line's step."""
        instruction = self.line.get(t, "")
        if word in ("begin", "exit"):
            return 0, f"{word}s"
        if word == "killed":
            return 0, "goes" if t in self.cuts else "stops"
        if word == "left":
            return 0, "leaves"
        if word == "join":
            return 1 if rest[1] == "0" else 0, "goes"
        if word == "tick":
            return 0, "ticks"
        if word in ("timeout", "cut"):
            who = self.image.thread(rest[0])
            return self.cell[who], f"times_out {who}" if word == "timeout" else f"cuts {who}"
        if word == "expire":
            return self.image.row(rest[0]), "expires"
        if word == "inherit":
            return self.image.row(rest[1]), "goes"
        if word == "start":
            return 0, "skips" if "K_INHERIT_PERMS" in instruction else "goes"
        if word == "drop":
            who, x = self.image.thread(rest[0]), self.image.row(rest[1]) if not rest[1].startswith("0x") else 0
            if instruction.split()[:1] in (["k_object_access_revoke"], ["k_object_release"]) and t not in self.dropped:
                return 0, "goes"
            return x, "goes" if who == t and t in self.ends else f"cleans {who}"
        if word == "uninit":
            return 0, "skips" if t in self.ends else "goes"
        if word == "reserve":
            return 0 if rest[1] == "NULL" else self.image.row(rest[1]), "goes"
        if word == "recycle":
            return self.image.row(rest[0]), "recycles"
        return 0, "goes"

    def follow(self, t, word, rest, way):
        """Keeps where the thread stands after a line."""
        if word == "begin":
            script = self.image.scripts[self.image.index("scripts", rest[0])]
            self.line[t] = script["lines"][int(rest[1]) - 1]
            self.dropped.discard(t)
        if word == "act" and rest[1] == "wait":
            self.cell[t] = self.image.row(rest[0])
        if word == "join" and rest[1] == "wait":
            self.cell[t] = JOIN_CELL
        if word == "futex" and rest[0] == "wait" and rest[3] == "wait":
            self.cell[t] = FUTEX_CELL
        if word == "cut" or word == "abort" and rest[0] != "none" and self.image.thread(rest[0]) == t:
            self.cuts.add(self.image.thread(rest[0]))
        if word == "killed":
            self.cuts.discard(t)
            self.line.pop(t, None)
            self.ends.add(t)
        if word in ("reply", "user", "fatal", "exit"):
            self.line.pop(t, None)
        if word == "exit" or word == "fatal" and rest[0] != "4" and self.image.table["oops"] == "abort":
            self.ends.add(t)
        if word == "drop" and way == "goes":
            self.dropped.add(t)
        if word == "uninit":
            self.ends.discard(t)

    def add(self, text):
        thread, word, *rest = text.split()
        t = self.image.thread(thread)
        x, way = self.choice(t, word, rest)
        self.events.append(call("by", str(t), self.act(word, rest)))
        self.choices.append(f"on {t}" if (x, way) == (0, "goes") else call("choose", str(t), str(x), way))
        self.follow(t, word, rest, way)
