"""Times hallscore on texts of at most 32,768 bytes of edits on a hall of 64 stops: random ones, and a ring that opens and closes."""
import random
import subprocess
import sys
import time

LONGEST = 32768


def filled(text, lines):
    for line in lines:
        if len(text) + len(line) > LONGEST:
            return text
        text += line


def random_edits():
    rng = random.Random(3)
    links = {}
    while True:
        kind = rng.random()
        if len(links) < 128 or kind < 0.4:
            u, v = rng.sample(range(64), 2)
            if (u, v) in links:
                continue
            links[u, v] = rng.randint(1, 65535)
            yield f"insert {u} {v} {links[u, v]}\n"
            continue
        u, v = rng.choice(list(links))
        if kind < 0.55 and links[u, v] > 1:
            links[u, v] = rng.randint(1, links[u, v] - 1)
            yield f"cheapen {u} {v} {links[u, v]}\n"
        elif kind < 0.7 and links[u, v] < 65535:
            links[u, v] = rng.randint(links[u, v] + 1, 65535)
            yield f"raise {u} {v} {links[u, v]}\n"
        else:
            del links[u, v]
            yield f"delete {u} {v}\n"


def ring_edits():
    for u in range(64):
        yield f"insert {u} {(u + 1) % 64} 9\n"
    while True:
        yield "delete 0 1\n"
        yield "insert 0 1 9\n"


def least_seconds(program, text):
    best = float("inf")
    for _ in range(5):
        start = time.perf_counter()
        subprocess.run([program], input=text.encode(), stdout=subprocess.DEVNULL, check=True)
        best = min(best, time.perf_counter() - start)
    return best


for name, lines in (("random edits", random_edits()), ("ring opened and closed", ring_edits())):
    text = filled("hall 64\n", lines)
    seconds = least_seconds(sys.argv[1], text)
    print(f"hallscore, {name}: {len(text)} bytes, {text.count(chr(10)) - 1} edits, {seconds:.3f} s")
