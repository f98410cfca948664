"""The calls by turns (crates/cellarcliff/cellarcliff.h) by their definitions, as rx_turns/specs has them: what is due to whom, and in which order.

A turn is a stack's word and how many of its calls are under way. A lane is due to one turn at most, the one that claimed it last; what a
turn was handed last, of the lane that it serves, is in its hand.
"""
from __future__ import annotations

from dataclasses import dataclass, replace
from typing import NamedTuple

from .engine import AT, DONE, NEXT, QUEUES, Answer, Command, Due, Effect, Engine
from .scenario import Canonical


class Turn(NamedTuple):
    by: int
    depth: int


@dataclass
class Stack:
    """One for each stack of calls: its word, how many of its calls are under way, the ticket of what it began last."""
    by: int
    depth: int = 0
    begun: int = 0

    def turn(self) -> Turn:
        return Turn(self.by, self.depth)


class Claim(NamedTuple):
    """A lane that is due; `inside` what stands before the rest there. Those of one part became due in any order."""
    lane: int
    inside: bool
    part: tuple[int, int] = (0, 0)


class Task(NamedTuple):
    """What a turn was handed."""
    effect: Effect
    ticket: int
    claim: Claim
    is_begun: bool = False


class Stepped(NamedTuple):
    """What a step answers; of the command as `Answer` has it."""
    made: Answer
    task: Task | None = None
    is_own: bool = False


class Turns(Engine):
    """An engine, and beside it the agenda."""

    def __init__(self, way: Canonical, limit: int | None = None):
        super().__init__(way, limit)
        self.due: dict[Turn, list[Claim]] = {}
        self.hands: dict[Turn, Task] = {}
        self.tickets = self.commands = 0
        self.astray: int | None = None  # a lane from this one on may have something, and be due to nobody

    # The calls

    def step(self, stack: Stack, command: Command | None = None) -> Stepped:
        """What was begun is told; the command is made, if there is one; and whatever its status, the turn goes on."""
        self.note(stack)
        made, own = self.made_in(stack.turn(), command) if command else (Answer(DONE), None)
        task = self.go_on(stack.turn())
        return Stepped(made, task, task is not None and task is own)

    def let_pass(self, stack: Stack, depth: int, now: bool) -> None:
        """The call of this depth lets its lane go; what is left there is the turn's that calls, or stays with that one."""
        self.note(stack)
        outer = Turn(stack.by, depth)
        claim = self.let_go(outer)
        if claim and not (claim.inside and self.is_due(claim.lane)):  # what is due whole stays so
            self.claim(stack.turn() if now else outer, claim)

    def stop(self, stack: Stack) -> None:
        """The turn ends, and each deeper call."""
        self.note(stack)
        for turn in (stack.turn(), *self.deeper(stack.turn())):
            if self.let_go(turn) or self.due.get(turn):
                self.astray = 0
            self.due.pop(turn, None)

    # What is due, and in hand

    def note(self, stack: Stack) -> None:
        for turn, task in self.hands.items():
            if turn.by == stack.by and task.ticket == stack.begun:
                self.hands[turn] = task._replace(is_begun=True)

    def claim(self, turn: Turn, claim: Claim) -> None:
        """The lane is due to this turn, behind all others, and to no other turn."""
        self.due = {it: [one for one in claims if one.lane != claim.lane] for it, claims in self.due.items()}
        self.due.setdefault(turn, []).append(claim)

    def is_due(self, lane: int) -> bool:
        return any(claim.lane == lane for claims in self.due.values() for claim in claims)

    def is_free(self, turn: Turn) -> bool:
        return turn not in self.hands and not self.due.get(turn)

    def deeper(self, turn: Turn) -> list[Turn]:
        """The deeper calls of its stack, the nearest first."""
        return sorted(it for it in {*self.due, *self.hands} if it.by == turn.by and it.depth > turn.depth)

    # A command

    def made_in(self, turn: Turn, command: Command) -> tuple[Answer, Task | None]:
        """The answer; and the item, where it is handed out at once. It waits in its lane where the turn has something else."""
        c = replace(command, by=turn.by)
        if c.what == NEXT and c.flags == 0 and not self.is_free(turn):
            c.flags = QUEUES
        answer = self.made(c)
        if answer.hands is not None:
            self.hand(answer, due := self.due_at_once(answer))
            return answer, self.hand_out(turn, Claim(due.lane, due.inside), answer.handed)
        self.commands += 1
        if answer.node is not None and AT[c.place] == 'inner' and c.node in self.homes:
            self.come_home(turn, self.homes[c.node].lane)
        for due in answer.lanes:
            self.claim(turn, Claim(due.lane, due.inside, (self.commands, due.by)))
        return answer, None

    def come_home(self, turn: Turn, lane: int) -> None:
        """Where an inner was opened in a lane that is due, that is due to this turn; but not where another stack serves it."""
        serves = any(it.by == turn.by and task.claim.lane == lane and not task.claim.inside for it, task in self.hands.items())
        for claim in [it for claims in self.due.values() for it in claims if it.lane == lane and (serves or not it.inside)]:
            self.claim(turn, claim._replace(part=(-self.commands, 0)))

    def due_at_once(self, answer: Answer) -> Due:
        return answer.lanes[0]

    # Serving

    def go_on(self, turn: Turn) -> Task | None:
        for it in (turn, *self.deeper(turn)):
            if task := self.serve(it):
                return task
        return self.pick_up(turn) if turn.depth == 1 else None

    def serve(self, turn: Turn) -> Task | None:
        """What was not begun, once more; the rest of the lane that it serves; what is due."""
        task = self.hands.get(turn)
        if task:
            if not task.is_begun:
                return task
            if (more := self.asked(turn, task.claim)):
                return more
            del self.hands[turn]
        while claim := self.first_due(turn):
            self.due[turn].remove(claim)
            if task := self.asked(turn, claim):
                return task
        return None

    def first_due(self, turn: Turn) -> Claim | None:
        return next(iter(self.due.get(turn, ())), None)

    def asked(self, turn: Turn, claim: Claim) -> Task | None:
        effect = self.take(claim.lane, claim.inside, turn.by)
        return self.hand_out(turn, claim, effect) if effect else None

    def hand_out(self, turn: Turn, claim: Claim, effect: Effect | None) -> Task:
        assert effect is not None
        self.tickets += 1
        self.hands[turn] = Task(effect, self.tickets, claim)
        return self.hands[turn]

    def pick_up(self, turn: Turn) -> Task | None:
        """What stopped calls left: the first lane that has something which nobody serves."""
        if self.astray is None:
            return None
        lane = self.first_left(self.astray)
        self.astray = None if lane is None else lane + 1
        if lane is None:
            return None
        self.claim(turn, Claim(lane, False))
        return self.serve(turn)

    def first_left(self, start: int) -> int | None:
        return min((lane for lane in self.left() if lane >= start), default=None)

    def let_go(self, turn: Turn) -> Claim | None:
        """A lane is given up, and what was not begun stands first there again; of one that the stack serves further out it stays in hand.
        What may be left."""
        task = self.hands.get(turn)
        if task is None or task.claim.inside and not task.is_begun:
            return None
        del self.hands[turn]
        if task.claim.inside:
            return task.claim
        return task.claim if self.give_up(task.claim.lane, turn.by, None if task.is_begun else task.effect) else None
