#!/usr/bin/env python3
"""The driver of docs/FIRST-DRIVER.md: each line that you type is drawn on page 1/1, which is shown when it has changed.

    examples/first_driver.py ME PORT OTHER

ME is its member number, PORT its own port, and OTHER the port of another driver on this machine.
"""
import os, random, select, socket, subprocess, sys, time

me, port, other = sys.argv[1:]
program = os.environ.get("WB_PROGRAM", "./wb")
host = subprocess.Popen([program, "host"], text=True, stdin=subprocess.PIPE, stdout=subprocess.PIPE)
network = socket.socket(socket.AF_INET, socket.SOCK_DGRAM)
network.bind(("127.0.0.1", int(port)))
keyboard = open(0, "rb", buffering=0)
began = time.monotonic_ns()
due = 0


def now():
    return (time.monotonic_ns() - began) // 1000


def tell(line):
    global due
    print(line, file=host.stdin, flush=True)
    block = []
    for answer in host.stdout:
        word, *rest = answer.split(maxsplit=1)
        if word == "ok":
            due = float(rest[0].replace("never", "inf"))
            return block
        if word == "send":
            network.sendto(bytes.fromhex(rest[0]), ("127.0.0.1", int(other)))
        elif word == "refused":
            print(answer.strip())
            return block
        else:
            block.append(answer.strip())
    sys.exit("the host has ended")


def show():
    print("show 1 1 20 3", file=host.stdin, flush=True)
    for _ in range(3):
        print(next(host.stdout).rstrip())
    next(host.stdout)  # ok DUE


tell(f"board {me} 1000 1 {random.getrandbits(64)}")
tell("keep 4000 0")
while True:
    ready, _, _ = select.select([network, keyboard], [], [], max(0, due - now()) / 1e6)
    if now() >= due:
        tell(f"tick {now()}")
    if network in ready:
        datagram = network.recv(65535)
        if "batch 1 0 0 0" in tell(f"came {now()} {datagram.hex()}"):
            show()
    if keyboard in ready:
        drawing = keyboard.readline().decode().strip()
        if not drawing:
            sys.exit()
        tell(f"add {now()} {time.time_ns() // 1000} 1/1 {drawing}")
        show()
