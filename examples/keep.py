#!/usr/bin/env python3
"""The smallest driver of a self-managing host: each line of its input is drawn on page 1/1, and soon the others have it.

    examples/keep.py PROGRAM ME PORT OTHER ..

ME is its member number, PORT its own port, and each OTHER the port of another driver on this machine. An input of three lines:

    line 0 0 9 0 *
    text 0 1 "hello"
    delete 2 1
"""
import random, select, socket, subprocess, sys, time

program, me, port, *others = sys.argv[1:]
network, user, due = socket.socket(socket.AF_INET, socket.SOCK_DGRAM), open(0, "rb", buffering=0), 0
network.bind(("127.0.0.1", int(port)))
host = subprocess.Popen([program, "host"], text=True, stdin=subprocess.PIPE, stdout=subprocess.PIPE)
began = time.monotonic_ns()


def now():
    return (time.monotonic_ns() - began) // 1000


def send(datagram):
    for other in others:
        network.sendto(datagram, ("127.0.0.1", int(other)))


def drawing():
    return user.readline().decode().strip() or sys.exit()


def tell(line):
    global due
    print(line, file=host.stdin, flush=True)
    while (said := next(host.stdout).split())[0] not in ("ok", "refused"):
        if said[0] == "send": send(bytes.fromhex(said[1]))
    if said[0] == "ok" and said[1] != "never": due = int(said[1])


for line in f"board {me} 65535 1 {random.getrandbits(64)}", "keep 4000 0": tell(line)
while True:
    if now() >= due: tell(f"tick {now()}"); continue
    ready, _, _ = select.select([network, user], [], [], max(0, due - now()) / 1e6)
    if network in ready: tell(f"came {now()} {network.recv(65535).hex()}")
    elif user in ready: tell(f"add {now()} {time.time_ns() // 1000} 1/1 {drawing()}")
