"""All outcomes of a small rank program, by brute force: the acts of all ranks in every order, with
no reduction. Steps that no other rank sees (`let`, `if`, `while`) are made at once.

A program is a list of statements, as tuples; `text` writes them in the language. A probe that
doesn't wait may miss at any time, as the definition of a crash-free run allows. Collectives are
packets of a context of their own, as in the machine: a barrier goes to rank 0 and back. A state
that was searched before, with the same printed lines, isn't searched again.

In place of what a rank prints, an outcome may have what it sends, also in collectives, or what its
receives get, each with the line at which it does.

If sends are synchronous, a rank with a message that isn't received yet makes no step, not even one
that no other rank sees. Packets of collectives don't count.
"""
from __future__ import annotations

from typing import NamedTuple

# Expressions: a number, a name, or (operator, left, right).
WORDS = ("rank", "size", "source", "gottag", "count")


def shown(e) -> str:
    if isinstance(e, tuple):
        return f"({shown(e[1])} {e[0]} {shown(e[2])})"
    return str(e)


def text(body, depth: int = 0) -> str:
    lines = []
    for s in body:
        kind = s[0]
        if kind == "if":
            lines += [f"if {shown(s[1])}", *([text(s[2], depth + 1)] if s[2] else []), *(["else", text(s[3], depth + 1)] if s[3] else []), "end"]
        elif kind == "while":
            lines += [f"while {shown(s[1])}", text(s[2], depth + 1), "end"]
        elif kind == "let":
            lines.append(f"let {s[1]} = {shown(s[2])}")
        elif kind == "send":
            lines.append(f"send {shown(s[1])}, {s[2]}, {shown(s[3])}")
        elif kind in ("recv", "iprobe"):
            lines.append(f"{kind} {any_or(s[1])}, {any_or(s[2])}, {s[3]}")
        elif kind == "probe":
            lines.append(f"probe {any_or(s[1])}, {any_or(s[2])}")
        elif kind == "print":
            lines.append(f"print {shown(s[1])}")
        elif kind == "barrier":
            lines.append("barrier")
        elif kind == "bcast":
            lines.append(f"bcast {s[1]}, {s[2]}")
        elif kind == "reduce":
            lines.append(f"reduce sum, {s[1]}, {shown(s[2])}, {s[3]}")
        else:
            raise ValueError(kind)
    return "\n".join(lines)


def any_or(e) -> str:
    return "any" if e is None else shown(e)


def names(body) -> set[str]:
    found = set()
    for s in body:
        if s[0] in ("let", "bcast"):
            found.add(s[1] if s[0] == "let" else s[2])
        if s[0] in ("recv", "iprobe", "reduce"):
            found.add(s[3])
        for part in s[2:] if s[0] in ("if", "while") else ():
            found |= names(part)
    return found


def declared(body) -> list[str]:
    return sorted(names(body) | {"x", "y"})


def whole_text(body) -> str:
    return "".join(f"var {name}\n" for name in declared(body)) + text(body) + "\n"


def with_lines(body, line: int) -> tuple[tuple, int]:
    """The statements, each with its line at its end, where the first stands on this one; and the
    line behind them."""
    found = []
    for s in body:
        here, parts, line = line, [], line + 1
        for part in s[2:] if s[0] in ("if", "while") else ():
            # (there is no `else` without statements behind it)
            part, line = with_lines(part, line + (len(parts) == 1 and bool(part)))
            parts.append(part)
        line += len(parts) > 0
        found.append((*(s[:2] if parts else s), *parts, here))
    return tuple(found), line


class Fault(Exception):
    pass


# What the lines of a rank are.
PRINTS, SENDS, RECEPTIONS = "prints", "sends", "receptions"


class Rank(NamedTuple):
    # what is left to be done, the next statement first
    todo: tuple
    values: tuple  # (name, value), sorted
    lines: tuple
    # of a collective that has begun: how many of its parts are done, and what is gathered
    part: int = 0
    total: int = 0
    fault: int = 0


def value(e, rank: int, size: int, values: dict) -> int:
    if isinstance(e, int):
        return e
    if isinstance(e, str):
        return {"rank": rank, "size": size}.get(e, values.get(e, 0))
    op, a, b = e[0], value(e[1], rank, size, values), value(e[2], rank, size, values)
    if op in ("/", "%"):
        if b == 0:
            raise Fault(2)
        quotient = abs(a) // abs(b) * (1 if (a < 0) == (b < 0) else -1)
        return quotient if op == "/" else a - b * quotient
    return {"+": a + b, "-": a - b, "*": a * b, "==": int(a == b), "<": int(a < b)}[op]


def matches(source, tag, packet) -> bool:
    return packet[0] == "user" and (source is None or packet[1] == source) and (tag is None or packet[2] == tag)


def set_to(r: Rank, **changes: int) -> Rank:
    values = dict(r.values)
    values.update(changes)
    return r._replace(values=tuple(sorted(values.items())))


def telling(r: Rank, told: str, what: str, *line) -> Rank:
    return r._replace(lines=r.lines + line) if told == what else r


def waits(queues, k: int, size: int) -> bool:
    """Whether a message that the rank sent isn't received yet."""
    return any(packet[0] == "user" for a in range(size) for packet in queues[k * size + a])


def successors(state, size: int, synchronous: bool = False, told: str = PRINTS):
    """The states after one step of one rank."""
    ranks, queues = state
    for k in range(size):
        r = ranks[k]
        if r.fault or not r.todo or (synchronous and waits(queues, k, size)):
            continue
        try:
            found = list(steps(r, k, size, queues, told))
        except Fault as fault:
            found = [(r._replace(fault=fault.args[0]), queues)]
        for after, left in found:
            following = ranks[:k] + (after,) + ranks[k + 1 :]
            # a receive frees another rank than the one that made it
            yield (tuple(a if synchronous and waits(left, i, size) else settled(a, i, size) for i, a in enumerate(following)), left)


def settled(r: Rank, k: int, size: int) -> Rank:
    """The rank after its next internal steps."""
    while r.todo and not r.fault and r.todo[0][0] in ("let", "if", "while"):
        try:
            r = next(steps(r, k, size, ()))[0]
        except Fault as fault:
            r = r._replace(fault=fault.args[0])
    return r


def put(queues, a: int, b: int, packet):
    return tuple(q + (packet,) if (i == (a, b)) else q for i, q in pairs(queues))


def pairs(queues):
    size = int(len(queues) ** 0.5)
    return (((i // size, i % size), q) for i, q in enumerate(queues))


def without(queues, a: int, b: int, index: int):
    return tuple(q[:index] + q[index + 1 :] if (i == (a, b)) else q for i, q in pairs(queues))


def eligible(queues, k: int, size: int, source, tag):
    """The first packet of each source that matches."""
    for a in range(size):
        queue = queues[a * size + k]
        for index, packet in enumerate(queue):
            if matches(source, tag, packet):
                yield a, index, packet
                break


def collective(queues, k: int, size: int, a: int):
    """The first packet of a collective of this source."""
    for index, packet in enumerate(queues[a * size + k]):
        if packet[0] == "all":
            return index, packet
    return None


def steps(r: Rank, k: int, size: int, queues, told: str = PRINTS):
    s, rest = r.todo[0], r.todo[1:]
    values = dict(r.values)
    on = r._replace(todo=rest, part=0, total=0)

    def of(e) -> int:
        return value(e, k, size, values)

    def rank_of(e):
        if e is None:
            return None
        v = of(e)
        if not 0 <= v < size:
            raise Fault(4)
        return v

    def tag_of(e):
        if e is None:
            return None
        v = of(e)
        if not 0 <= v <= 32767:
            raise Fault(5)
        return v

    kind = s[0]
    if kind == "let":
        yield set_to(on, **{s[1]: of(s[2])}), queues
    elif kind == "if":
        yield on._replace(todo=(tuple(s[2]) if of(s[1]) else tuple(s[3])) + rest), queues
    elif kind == "while":
        yield (on._replace(todo=tuple(s[2]) + r.todo) if of(s[1]) else on), queues
    elif kind == "print":
        yield telling(on, told, PRINTS, of(s[1])), queues
    elif kind == "send":
        dest = rank_of(s[1])
        packet = ("user", k, tag_of(s[2]), of(s[3]))
        yield telling(on, told, SENDS, (dest, packet, s[-1])), put(queues, k, dest, packet)
    elif kind == "recv":
        for a, index, packet in eligible(queues, k, size, rank_of(s[1]), tag_of(s[2])):
            after = telling(on, told, RECEPTIONS, (packet, s[-1]))
            yield set_to(after, **{s[3]: packet[3]}, source=a, gottag=packet[2], count=1), without(queues, a, k, index)
    elif kind == "probe":
        for a, _, packet in eligible(queues, k, size, rank_of(s[1]), tag_of(s[2])):
            yield set_to(on, source=a, gottag=packet[2], count=1), queues
    elif kind == "iprobe":
        yield set_to(on, **{s[3]: 0}), queues
        for a, _, packet in eligible(queues, k, size, rank_of(s[1]), tag_of(s[2])):
            yield set_to(on, **{s[3]: 1}, source=a, gottag=packet[2], count=1), queues
    else:
        yield from parts(r, on, s, k, size, queues, of, told)


def parts(r: Rank, on: Rank, s, k: int, size: int, queues, of, told: str):
    """The next part of a collective: one of its sends or receptions."""
    kind = s[0]
    others = [a for a in range(size) if a != (0 if kind == "barrier" else s[1])]
    root = 0 if kind == "barrier" else s[1]
    if kind == "bcast":
        plan = [("to", a) for a in others] if k == root else [("from", root)]
    elif kind == "reduce":
        plan = [("from", a) for a in others] if k == root else [("to", root)]
    else:
        plan = [("from", a) for a in others] + [("to", a) for a in others] if k == root else [("to", root), ("from", root)]
    gives = of(s[2]) if kind == "reduce" else (dict(r.values).get(s[2], 0) if kind == "bcast" else 0)
    total = r.total if r.part else (gives if kind == "reduce" else 0)
    if r.part < len(plan):
        way, a = plan[r.part]
        if way == "to":
            packet = ("all", k, kind, gives)
            after, left = telling(r, told, SENDS, (a, packet, s[-1]))._replace(part=r.part + 1, total=total), put(queues, k, a, packet)
        else:
            found = collective(queues, k, size, a)
            if found is None:
                return
            index, packet = found
            if packet[2] != kind:
                yield r._replace(fault=7), without(queues, a, k, index)
                return
            after = r._replace(part=r.part + 1, total=total + packet[3] if kind == "reduce" else packet[3])
            left = without(queues, a, k, index)
    else:
        after, left = r._replace(total=total), queues
    if after.part < len(plan):
        yield after, left
        return
    on = on._replace(lines=after.lines)
    ended = on
    if kind == "reduce" and k == root:
        ended = set_to(on, **{s[3]: after.total})
    if kind == "bcast" and k != root:
        ended = set_to(on, **{s[2]: after.total})
    yield ended, left


def outcomes(body, size: int, most_states: int = 50_000, synchronous: bool = False, told: str = PRINTS) -> set | None:
    """The outcomes, each a tuple of (lines, end) of each rank; None if there are too many
    states."""
    return search(body, size, most_states, synchronous, told)[0]


def search(body, size: int, most_states: int, synchronous: bool = False, told: str = PRINTS) -> tuple[set | None, int]:
    """The same, and how many states there are, or how many were met until these were too many."""

    def end(state, k: int) -> str:
        r = state[0][k]
        if r.fault:
            return f"fault {r.fault}"
        return "stalled" if r.todo or (synchronous and waits(state[1], k, size)) else "halted"

    if told != PRINTS:
        body = with_lines(body, len(declared(body)) + 1)[0]
    begin = (tuple(settled(Rank(tuple(body), (), ()), k, size) for k in range(size)), ((),) * (size * size))
    seen, left, found = {begin}, [begin], set()
    while left:
        state = left.pop()
        following = list(successors(state, size, synchronous, told))
        if not following:
            found.add(tuple((r.lines, end(state, k)) for k, r in enumerate(state[0])))
        for after in following:
            if after not in seen:
                seen.add(after)
                left.append(after)
        if len(seen) > most_states:
            return None, len(seen)
    return found, len(seen)
