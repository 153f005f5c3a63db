#!/usr/bin/env python3
"""The large load: a line for each number from 1 on, which nothing but the number and a start decides.

    bench/load.py 7 20000    the first 20,000 lines, with the start 7

Four rooms of the same twenty users. The first eighty lines are their joins; then of each eight lines four are
messages, one is a message in the thread of the message four lines before it, one a receipt, one switches the
rule for messages on or off for somebody, and one is a `turn`. Who does it, and to what, comes from the first
three words of xoshiro256++, seeded with splitmix64 of the start and the line's number together.
"""
import itertools
import sys

WORD = (1 << 64) - 1
USERS = 20
ROOMS = 4
JOINS = USERS * ROOMS


def splitmix(state):
    """The words of splitmix64 from this state on."""
    while True:
        state = (state + 0x9e3779b97f4a7c15) & WORD
        word = ((state ^ (state >> 30)) * 0xbf58476d1ce4e5b9) & WORD
        word = ((word ^ (word >> 27)) * 0x94d049bb133111eb) & WORD
        yield word ^ (word >> 31)


def rotated(word, by):
    return ((word << by) | (word >> (64 - by))) & WORD


def xoshiro(state):
    """The words of xoshiro256++ from this state of four words on."""
    a, b, c, d = state
    while True:
        yield (rotated((a + d) & WORD, 23) + a) & WORD
        shifted = (b << 17) & WORD
        c ^= a
        d ^= b
        b ^= c
        a ^= d
        c ^= shifted
        d = rotated(d, 45)


def first(count, words):
    return list(itertools.islice(words, count))


def drawn(seed, count):
    """The first words of xoshiro256++ with this seed."""
    return first(count, xoshiro(first(4, splitmix(seed & WORD))))


def check():
    """Ends the program unless the words are those that are published: of splitmix64 from 1234567 on, of
    xoshiro256++ from the state 1, 2, 3, 4 on, and of both together for the seed 0."""
    published = [
        (splitmix(1234567), [6457827717110365317, 3203168211198807973, 9817491932198370423]),
        (xoshiro([1, 2, 3, 4]), [41943041, 58720359, 3588806011781223, 3591011842654386]),
        (iter(drawn(0, 3)), [5987356902031041503, 7051070477665621255, 6633766593972829180]),
    ]
    for words, wanted in published:
        if first(len(wanted), words) != wanted:
            sys.exit(f"{wanted[0]} isn't the first word that came")


def user(number):
    return f"@u{number % USERS}:example.org"


def room(number):
    return f"!r{number % ROOMS}:example.org"


def event(number, place, sender, kind, content, state_key=""):
    return (f'{{"cmd":"event","event":{{"content":{content},"event_id":"${number}","room_id":"{place}",'
            f'"sender":"{sender}",{state_key}"type":"{kind}"}}}}')


def join(number):
    who = user(number - 1)
    return event(number, room((number - 1) // USERS), who, "m.room.member", '{"membership":"join"}',
                 f'"state_key":"{who}",')


def receipt(number, a, b, c):
    read = 10 + a % (number // 8 - 10)
    return (f'{{"cmd":"receipt","event_id":"${8 * read + 3 + b % 5}","room_id":"{room(read)}","type":"m.read",'
            f'"user":"{user(c)}"}}')


def switch(a, b):
    enabled = "true" if b % 2 else "false"
    return (f'{{"cmd":"rule_enable","enabled":{enabled},"kind":"underride","rule_id":".m.rule.message",'
            f'"user":"{user(a)}"}}')


def message(number, b, c):
    thread = ""
    if number % 8 == 7:
        thread = f'"m.relates_to":{{"event_id":"${number - 4}","rel_type":"m.thread"}},'
    content = f'{{"body":"hello u{c % USERS}",{thread}"msgtype":"m.text"}}'
    return event(number, room(number // 8), user(b), "m.room.message", content)


def line(start, number):
    """The line of this number, from 1."""
    if number <= JOINS:
        return join(number)
    kind = number % 8
    if kind == 2:
        return '{"cmd":"turn","units":100}'
    a, b, c = drawn(start + number, 3)
    if kind == 0:
        return receipt(number, a, b, c)
    if kind == 1:
        return switch(a, b)
    return message(number, b, c)


def main():
    check()
    start, count = int(sys.argv[1]), int(sys.argv[2])
    for number in range(1, count + 1):
        print(line(start, number))


if __name__ == "__main__":
    main()
