"""Selections of files by the items of their headers ("Selections" in docs/FORMATS.md)."""

import struct

NUMBERS = {0x01, 0x04, 0x05, 0x06, 0x07, 0x08, 0x09, 0x0A, 0x0B, 0x12, 0x13, 0x16, 0x17, 0x18}
AND, OR, NOT = 0x20, 0x21, 0x22
MOST_TOKENS = 64


class Fault(Exception):
    """The first fault of tokens: its name, and its place or count, if it has one."""


def holds(tokens, items):
    """Whether the selection of these tokens holds of a header with these items."""
    if not tokens:
        raise Fault("Empty")
    stack, at, count = [], 0, 0
    while at < len(tokens):
        count += 1
        kind, begun = tokens[at], at
        if count > MOST_TOKENS:
            raise Fault("Many", at)
        if 0x10 <= kind <= 0x15:
            if at + 4 > len(tokens) or at + 4 + tokens[at + 3] > len(tokens):
                raise Fault("Cut", at)
            number = struct.unpack("<H", tokens[at + 1 : at + 3])[0]
            constant = tokens[at + 4 : at + 4 + tokens[at + 3]]
            at += 4 + len(constant)
            stack.append(any(satisfies(kind, key, content, constant) for key, content in items if key == number))
        elif kind in (AND, OR, NOT):
            at += 1
            if len(stack) < (1 if kind == NOT else 2):
                raise Fault("Few", begun)
            last = stack.pop()
            if kind == NOT:
                stack.append(not last)
            else:
                first = stack.pop()
                stack.append(first and last if kind == AND else first or last)
        else:
            raise Fault("BadOp", at)
    if len(stack) != 1:
        raise Fault("Left", len(stack))
    return stack[0]


def satisfies(kind, number, content, constant):
    """Whether an item's data compares so with the constant."""
    if number in NUMBERS:
        if len(content) != len(constant):
            return False
        content, constant = content[::-1], constant[::-1]
    return {
        0x10: content == constant,
        0x11: content != constant,
        0x12: content < constant,
        0x13: content <= constant,
        0x14: content > constant,
        0x15: content >= constant,
    }[kind]
