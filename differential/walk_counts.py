"""The walk of document 01, with document 02's reading of the empty trace, written from their prose alone, to compare counts, nodes and matrices of small runs with crates/walk/proofs/Examples."""
import sys

UNARY = {0: "!", 1: "X", 2: "X[!]", 3: "F", 4: "G"}
BINARY = {5: "|", 6: "&", 7: "U", 8: "R", 9: "->", 10: "<->"}
COMMUTES = {5, 6, 10}


def holds(op, n, i, f, g=None):
    """The reading at a position i below n, or at 0 where n is 0; f and g are the positions at which the children hold."""
    if op == 0: return i not in f
    if op == 1: return i + 1 >= n or i + 1 in f
    if op == 2: return i + 1 < n and i + 1 in f
    if op == 3: return any(j in f for j in range(i, n))
    if op == 4: return all(j in f for j in range(i, n))
    if op == 5: return i in f or i in g
    if op == 6: return i in f and i in g
    if op == 7: return any(j in g and all(k in f for k in range(i, j)) for j in range(i, n))
    if op == 8: return all(j in g or any(k in f for k in range(i, j)) for j in range(i, n))
    if op == 9: return i not in f or i in g
    if op == 10: return (i in f) == (i in g)


def places(n): return max(n, 1)


def positions(n, word): return {i for i in range(places(n)) if word >> i & 1}


def apply(op, lengths, x, y=None):
    return [sum(1 << i for i in range(places(n)) if holds(op, n, i, positions(n, x[j]), positions(n, y[j]) if y else None))
            for j, n in enumerate(lengths)]


def walk(sessions, unary, binary, constants, bound, room):
    """sessions: (mark, length, words). Answers the ending, the numbers tried and dropped, and what is kept: (code, left, right, size, matrix)."""
    marks = [s[0] for s in sessions]
    lengths = [s[1] for s in sessions]
    kept, tried, dropped = [], 0, 0

    def candidates(s):
        if s == 1:
            for p in range(len(sessions[0][2])): yield (16, p, 0, 1, [w[2][p] for w in sessions])
            if constants:
                yield (17, 0, 0, 1, [0] * len(sessions))
                yield (18, 0, 0, 1, [2 ** places(n) - 1 for n in lengths])
            return
        at = lambda size: [(p, k) for p, k in enumerate(kept) if k[3] == size]
        for p, k in at(s - 1):
            for op in unary: yield (op, p, 0, s, apply(op, lengths, k[4]))
        i = 1
        while i < -(-s // 2):
            for p, l in at(i):
                for q, r in at(s - 1 - i):
                    for op in binary:
                        yield (op, p, q, s, apply(op, lengths, l[4], r[4]))
                        if op not in COMMUTES: yield (op, q, p, s, apply(op, lengths, r[4], l[4]))
            i += 1

    for s in range(1, bound + 1):
        for c in candidates(s):
            tried += 1
            if [x & 1 for x in c[4]] == marks: return ("found",) + c[:4], tried, dropped, kept
            if any(c[4] == k[4] for k in kept):
                dropped += 1
                continue
            if len(kept) == room: return ("full", s), tried, dropped, kept
            kept.append(c)
    return ("none",), tried, dropped, kept


ALL1, ALL2 = [0, 1, 2, 3, 4], [5, 6, 7, 8, 9, 10]
RUNS = {
    "S2 B=2": ([(1, 1, [1]), (0, 1, [1])], [0], [], 0, 2, 4096),
    "S2 C=1": ([(1, 1, [1]), (0, 1, [1])], [0], [], 0, 2, 1),
    "S2 B=3 C=2": ([(1, 1, [1]), (0, 1, [1])], [0], [], 0, 3, 2),
    "S3": ([(1, 3, [3, 4]), (0, 3, [1, 4])], [], [7], 0, 3, 4096),
    "S4 B=2": ([(1, 0, [0])], ALL1, ALL2, 0, 2, 4096),
    "S4 B=3": ([(1, 0, [0])], ALL1, ALL2, 0, 3, 4096),
    "S4 mark 0": ([(0, 0, [0])], ALL1, ALL2, 0, 3, 4096),
    "an empty session beside another": ([(1, 0, [0]), (0, 1, [1])], [2, 3, 1, 0], [], 0, 2, 4096),
    "an empty session tells duplicates apart": ([(0, 0, [0]), (1, 1, [0])], [4], [], 1, 2, 4096),
    "constants": ([(1, 2, [1]), (0, 2, [1])], [4, 1], [], 1, 2, 4096),
    "the order of the loops": ([(1, 2, [2, 0]), (0, 2, [3, 1])], [2, 1], [5, 9], 0, 4, 10),
    "the left sizes rise": ([(0, 3, [4]), (0, 3, [3]), (1, 3, [0])], [3, 4], [10], 0, 5, 40),
    "none, all operators": ([(1, 2, [1]), (0, 2, [1])], ALL1, ALL2, 1, 5, 200),
    "found, two propositions": ([(1, 3, [5, 2]), (1, 3, [1, 6]), (0, 3, [5, 6]), (0, 3, [0, 2])], ALL1, ALL2, 0, 5, 200),
    "the same, room 20": ([(1, 3, [5, 2]), (1, 3, [1, 6]), (0, 3, [5, 6]), (0, 3, [0, 2])], ALL1, ALL2, 0, 5, 20),
    "found, constants": ([(1, 4, [9]), (0, 4, [1]), (0, 2, [1])], [1, 4], [8, 7], 1, 5, 200),
}

if __name__ == "__main__":
    for name, run in RUNS.items():
        end, tried, dropped, kept = walk(*run)
        print(name, end, "tried", tried, "kept", len(kept), "dropped", dropped)
        if "-v" in sys.argv:
            for k in kept: print("   ", k)
