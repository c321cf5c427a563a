#!/usr/bin/env python3
"""Two hosts draw on one page over pipes that take 20 ms, one of which loses each third datagram, until both show the same."""
import itertools, os, pathlib, subprocess

wb = os.environ.get("WB_PROGRAM") or pathlib.Path(__file__).resolve().parents[1] / "wb"
hosts = {member: subprocess.Popen([wb, "host"], text=True, stdin=subprocess.PIPE, stdout=subprocess.PIPE) for member in (1, 2)}
due, flying, now, report, count = {}, [], 0, 0, itertools.count(1)
SHAPES = ["frame 0 0 25 4 #", 'text 2 1 "Tuesday"', "line 2 2 23 2 -", 'text 2 3 "at three"', 'text 12 3 "I will come"']


def tell(member: int, line: str, rows: int = 0) -> list:
    """Writes a line and reads its block: the rows of a canvas, what else it prints, and when a timer is due."""
    print(line, file=hosts[member].stdin, flush=True)
    block = [next(hosts[member].stdout) for _ in range(rows)]
    while not (last := next(hosts[member].stdout)).startswith(("ok ", "refused ")):
        block.append(last)
    due[member] = float(last.split()[1].replace("never", "inf"))  # no number where the line was refused: the session ends
    return block


def give(member: int, line: str) -> None:
    """Tells a line. What the host sends then comes to the other one, but for each third datagram of member 1."""
    for sent in [it.strip() for it in tell(member, line) if it.startswith("send ")]:
        lost = member == 1 and next(count) % 3 == 0
        words = subprocess.check_output([wb, "words"], text=True, input=sent)
        print(f"{now / 1e6:.3f} s  member {member} {words}{'  (lost)' * lost}")
        if not lost:
            flying.append((now + 20_000, 3 - member, sent.replace("send", "datagram")))


for member in hosts:
    tell(member, f"board {member} 100 1 {member}")
for member, shape in zip([1, 1, 1, 1, 2], SHAPES):
    give(member, f"say draw {member} 1/1 {tell(member, 'next 1 1')[0].split()[1]} 0 {shape}")
while (page := tell(1, "show 1 1 26 5", rows=5)) != tell(2, "show 1 1 26 5", rows=5):
    now = int(min([report, *due.values(), *(moment for moment, _, _ in flying)]))
    lines = [(member, f"tick {now}") for member in hosts]
    lines += [(member, line) for moment, member, datagram in flying if moment == now for line in (datagram, "look 1 1")]
    lines += [(member, "session 1 1") for member in hosts if now == report]  # once a second
    flying = [it for it in flying if it[0] > now]
    report += 1_000_000 * (now == report)
    for member, line in lines:
        give(member, line)
print("both show\n" + "".join(page), end="")
