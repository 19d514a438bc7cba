"""A talk with the desk: requests with their replies, and what each slot has come to by its own.

The desk reads a whole script before it replies. So the script is sent anew for each further request, and the last reply is the new one.
"""

import os
import subprocess

import program
from tables import Fault

MOST_SLOTS = 16
NAME = "euler_desk"


class Exchange:
    """A request, as a slot and further words, with its reply; `before` is where the talk stood before it."""

    def __init__(self, slot, words, reply, before):
        self.slot, self.words, self.reply, self.before = slot, words, reply, before

    @property
    def line(self):
        return f"{self.slot} {' '.join(self.words)}"


class Slot:
    """An open slot: the flags of the statements that it keeps, its narrowings as two names and letters, the last world that it showed,
    and how many it showed since it was opened, narrowed, or given other statements."""

    def __init__(self, count):
        self.flags, self.narrowings, self.world, self.shown = [True] * count, [], None, 0

    def take(self, exchange):
        act, *given = exchange.words
        if act == "keep":
            self.flags, self.shown = [bit == "1" for bit in given[0] if bit != "."], 0
        elif act == "narrow":
            self.narrowings.append(given)
            self.shown = 0
        elif act == "next" and exchange.reply.startswith("world "):
            self.world = exchange.reply.partition(" ")[2]
            self.shown += 1


class Talk:
    """A copy of the problem is put into the folder, since the file may be changed while people talk. It has the same name, by which the
    program may speak of it."""

    def __init__(self, problem, switches, path, folder):
        self.path, self.switches, self.count, self.folder, self.exchanges = path, switches, len(problem.statements), folder, []
        self.file = os.path.basename(problem.path)
        with open(os.path.join(folder, self.file), "wb") as file:
            file.write(problem.text.encode())

    @property
    def lines(self):
        return [exchange.line for exchange in self.exchanges]

    @property
    def slots(self):
        """The open slots by their numbers."""
        out = {}
        for exchange in self.exchanges:
            if exchange.words == ["open"]:
                out[exchange.slot] = Slot(self.count)
            elif exchange.words == ["close"]:
                del out[exchange.slot]
            else:
                out[exchange.slot].take(exchange)
        return out

    def replies(self, lines):
        """What the program replies to a script of these lines."""
        words = [self.path, f"in={self.file}", "script=/dev/stdin", *self.switches]
        text = "".join(line + "\n" for line in lines)
        done = subprocess.run(words, input=text.encode(), capture_output=True, cwd=self.folder, check=False)
        out = done.stdout.decode()
        if done.returncode != 0:
            raise program.fault_of(done.returncode, out, done.stderr.decode())
        *replies, last, end = out.split("\n")
        if (last, end, len(replies)) != (f"served {len(lines)}", "", len(lines)):
            raise Fault(f"{NAME} gave no whole answer; it ends with {out[-40:]!r}")
        return replies

    def ask(self, slot, words, before):
        """The reply to one more request, which the slot must be ready for. After a fault the talk is as it was."""
        new = Exchange(slot, words, "", before)
        *earlier, last = self.replies(self.lines + [new.line])
        if earlier != [f"{exchange.slot} {exchange.reply}" for exchange in self.exchanges]:
            raise Fault(f"{NAME} replies otherwise to earlier requests than before; memory may be short")
        new.reply = last.partition(" ")[2]
        if new.reply == "NoMemory":
            raise Fault("there was no memory for this; close slots that you don't need")
        self.exchanges.append(new)
        return new.reply
