#!/usr/bin/env python3
"""The smallest driver of a judged host that keeps a record: each line of its input is drawn on page 1/1, and soon the others have it. If it
ends, by its own will or not, it goes on from its record when it is started again.

    PYTHONPATH=python examples/judged.py RECORD ME PORT OTHER ..

RECORD is a file that is its own, ME its member number, PORT its own port, and each OTHER the port of another driver on this machine. The host
is that of the library libwb in this process if there is one (WB_LIBRARY names it), and else a child process. An input of three lines:

    line 0 0 9 0 *
    text 0 1 "hello"
    delete 2 1
"""
import random, select, socket, sys, time

import wb

MINUTE = 60_000_000

path, me, port, *others = sys.argv[1:]
network, user = socket.socket(socket.AF_INET, socket.SOCK_DGRAM), open(0, "rb", buffering=0)
network.bind(("127.0.0.1", int(port)))
host = wb.LibraryHost() if wb.find_library() else wb.ChildHost(wb.find_program())
record = open(path, "ab+")
record.seek(0)
text = record.read()
whole = text[: text.rfind(b"\n") + 1]
record.truncate(len(whole))  # a line that was cut off was not sent
kept = whole.decode("latin-1").splitlines()
moments = [int(line[5:]) for line in kept if line.startswith("tick ")]
began = time.monotonic_ns() - 1000 * (max(moments, default=-1) + 1)


def now():
    return (time.monotonic_ns() - began) // 1000


def wall():
    return time.time_ns() // 1000


def write(line):
    record.write(line.encode("latin-1") + b"\n")
    record.flush()  # before anything is sent; a driver that fears for the machine has os.fsync too


def send(digits):
    for other in others:
        network.sendto(bytes.fromhex(digits), ("127.0.0.1", int(other)))


def tell(line, is_old=False):
    block = host.ask(line)
    for word, _, rest in (each.partition(" ") for each in block.lines):
        if word == "record": write(rest)
        elif word == "send" and not is_old: send(rest)
        elif word == "warn": print(rest, file=sys.stderr)
    if block.fault: print(block.fault, file=sys.stderr)
    return any(each.startswith("drew 1 1 ") for each in block.lines)


def show():
    print("\n".join(host.ask("show 1 1 40 3").lines), flush=True)


if not kept:
    kept.append(f"board {me} 65535 1 {random.getrandbits(64)}")
    write(kept[0])
tell(kept[0])
tell(f"judge {now()} 4000 0 {wall()} - -")
for line in kept[1:]: tell(f"held {line}", is_old=True)
told = now()
while True:
    if host.due is not None and now() >= host.due: tell(f"tick {now()}"); continue
    if now() >= told + MINUTE: told = now(); tell(f"wall {told} {wall()}"); continue
    due = told + MINUTE if host.due is None else min(host.due, told + MINUTE)
    ready, _, _ = select.select([network, user], [], [], max(0, due - now()) / 1e6)
    if network in ready:
        datagram, (address, source) = network.recvfrom(65535)
        origin = int.from_bytes(socket.inet_aton(address), "big") << 16 | source
        if tell(f"came {now()} {origin} {datagram.hex()}"): show()
    elif user in ready:
        drawing = user.readline().decode("latin-1").strip() or sys.exit()
        if tell(f"add {now()} 1/1 {drawing}"): show()
