#!/usr/bin/env python3
"""Transcripts, as crates/rti_run prints them: a script whose commands have their answers below them, two spaces in.

Reads a script or a transcript on standard input, and writes it with the model's answers in place of its own. Below an opening, a
request or an abort stands what it leaves: cause and code; whether the session is finished; how many words of the delivery buffer
and of the slab are as they were before they were lent; and the other words of the slab that are not 0, each with its place.
"""
import sys

from model import Machine

SLAB, ROOM, MARK = 130, 40, 99


def left(machine, answers):
    state, slab = machine.state, machine.slab[:SLAB]
    sent = sum(answer.startswith("deliver ") for answer in answers)
    written = [f"{at}:{word}" for at, word in enumerate(slab) if word not in (0, MARK)]
    ended = f"cause {state.cause} {state.code} finished {int(state.finished())}"
    return " ".join([ended, f"left {ROOM - 7 * sent} slab {slab.count(MARK)}", *written])


def told(lines):
    machine = Machine()
    machine.slab, machine.lent, machine.room = [MARK] * len(machine.slab), SLAB, ROOM
    for line in lines:
        if line.startswith("  "):
            continue
        yield line
        answers = machine.feed(line)
        if line.split(" ")[0] in ("open", "request", "abort"):
            answers = answers + [left(machine, answers)]
        for answer in answers:
            yield "  " + answer


def main():
    for line in told(sys.stdin.read().split("\n")[:-1]):
        print(line)


if __name__ == "__main__":
    main()
