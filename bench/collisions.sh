#!/usr/bin/env bash
# Loads texts and ids that collide under the default hasher of the kit, whose seed is fixed, each beside ordinary ones of the same
# lengths: processor time and peak memory.
#
#     bench/collisions.sh [PROGRAM]
#
# PROGRAM is the built program, by default crates/qcube/out/qcube. A time is the least of three runs, or of RUNS.
source "$(dirname "${BASH_SOURCE[0]}")/common.sh"

python3 - <<'PY'
import random
from pairs import base, schema

WORD = 1 << 64
MASK = WORD - 1
# The default hasher: its first state and its multiplier.
STATE, MULTIPLIER = 0x243F_6A88_85A3_08D3, 0x9E37_79B9_7F4A_7C15
draw = random.Random(11)


def fold(a, b):
    product = a * b
    return (product & MASK) ^ (product >> 64)


def colliding_texts(many):
    """Texts of 48 bytes with one hash. Their third word is the hasher's state there, which makes the state 0."""
    plain = "abcdefghijklmnopqrstuvwxyz"
    while True:
        front = "".join(draw.choices(plain, k=16)).encode()
        first, second = (int.from_bytes(front[at : at + 8], "little") for at in (0, 8))
        state = fold(first ^ (STATE + 48) & MASK, second ^ MULTIPLIER).to_bytes(8, "little")
        try:
            middle = state.decode()
        except UnicodeDecodeError:
            continue
        if all(letter.isprintable() and letter not in '",*?|~= ' for letter in middle):
            return [front.decode() + middle + f"{number:08}" + "z" * 16 for number in range(many)]


def ordinary_texts(many):
    return ["".join(draw.choices("abcdefghijklmnopqrstuvwxyz", k=40)) + f"{number:08}" for number in range(many)]


def colliding_ids(many, bits):
    """Ids whose hashes have the same lowest bits, found by trying."""
    ids, mask = [], (1 << bits) - 1
    number = 1 << 62
    while len(ids) < many:
        number += 1
        state = fold(STATE ^ number, MULTIPLIER ^ 16)
        if (state ^ state >> 32) & mask == 0:
            ids.append(number)
    return ids


def write(name, ids, texts):
    base(name, "id,a,sale", (f"{row},{text},1" for row, text in zip(ids, texts)))


schema("s", "a")
for many in (5_000, 20_000, 200_000):
    write(f"texts{many}", range(1, many + 1), colliding_texts(many))
    write(f"usual{many}", range(1, many + 1), ordinary_texts(many))
for many, bits in ((5_000, 8), (20_000, 10), (200_000, 7)):
    texts = ordinary_texts(many)
    write(f"ids{many}", colliding_ids(many, bits), texts)
    write(f"drawn{many}", draw.sample(range(1 << 62, 1 << 63), many), texts)
PY

python3 - "$program" <<'PY'
from pairs import measure_pairs

measure_pairs((f"{many:,} texts of one hash", "s", f"texts{many}", f"usual{many}") for many in (5_000, 20_000, 200_000))
measure_pairs((f"{many:,} ids whose hashes share their lowest {bits} bits", "s", f"ids{many}", f"drawn{many}")
              for many, bits in ((5_000, 8), (20_000, 10), (200_000, 7)))
PY
