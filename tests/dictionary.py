"""Words, numbers and texts of the formats, good and bad, for tests/fuzz."""

# Numbers at the ends of ranges and beyond, and what is almost a number.
NUMBERS = """
0 00 1 01 2 3 15 16 17 255 256 2499 2500 2501 4096 4097 65535 65536 99999 100000 100001 199999 200000 200001 50000000 50000001
4294967295 4294967296 9223372036854775807 9223372036854775808 18446744073709551615 18446744073709551616 -1 +1 1.0 1e3 0x1 ٣
""".split() + ["9" * 40, "1" + "0" * 300]

MOVES = "e2e4 e7e5 g1f3 f2f3 d8h4 e1g1 e8c8 e7e8q a2a1n e7e8k e7e8Q a1a1 h8h8 i1a1 a0a1 a9a1 h1h8 e2e e2e44 e2-e4".split()

# Moves in algebraic notation, and what is almost one.
ALGEBRAIC = """
e4 e5 Nf3 Nc6 Bb5 a6 exd6 exf6 O-O O-O-O O-O+ 0-0 o-o e8=Q e8Q gxh8=N+ bxa1=Q# Rxh8+ Qh4# Nbd2 N1d2 Nb1d2 Rae1 R1xe1 Kg1 Kd7 Bd8# Pe4 e2e4
e4=Q e8 e8=K xd5 Nx N ♘f3 e4+ e4# exd6e.p. exd6+ e4!? Nf3++ Z0
""".split()

POSITIONS = """
rnbqkbnr/pppppppp/8/8/8/8/PPPPPPPP/RNBQKBNR w KQkq -
rnbqkbnr/pppppppp/8/8/4P3/8/PPPP1PPP/RNBQKBNR b KQkq e3
rnbqkbnr/pppppppp/8/8/4P3/8/PPPP1PPP/RNBQKBNR b KQkq e3 0 1
rnbqkbnr/pppppppp/8/8/8/8/PPPPPPPP/RNBQKBNR w KQkq - 9999999999 9999999999
rnbqkbnr/pppppppp/8/8/8/8/PPPPPPPP/RNBQKBNR w KQkq - 99999999999 1
r3k2r/8/8/8/8/8/8/R3K2R w KQkq -
r3k2r/8/8/8/8/8/8/R3K2R w QK -
1k6/8/1K6/8/8/8/8/7R w - -
1k6/8/1K6/8/8/8/8/7R b - -
k7/8/8/3pP3/8/8/8/K7 w - d6
k7/8/8/3pP3/8/8/8/K7 w - d3
k7/8/8/8/8/8/8/8 w - -
k7/p7/P7/8/8/8/8/KK6 w - -
kR6/8/K7/8/8/8/8/8 w - -
k7/2Q5/1K6/8/8/8/8/8 b - -
k6P/8/8/8/8/8/8/K7 w - -
k7/qqqqqqqq/qqqqqqqq/8/8/8/8/K7 b - -
k7/8/8/8/8/8/8/K7 w K -
k7/8/8/8/8/8/8/K7 w - -
k7/44/11111111/8/8/8/8/K7 w - -
k7/9/8/8/8/8/8/K7 w - -
8/8/8/8/8/8/8/8 w - -
QQQQQQQQ/QQQQQQQ1/8/8/8/8/k1K5/8 b - -
""".strip().split("\n")

WORDS = """
silent|pawn d5|piece h8|took e4|check|check file|check rank|check long|check short|check knight|check file+rank+long+short+knight
check rank+file|check file+file|tries 1|tries 16|tries 17|tries 0|tries some|mate|stalemate|check rank, mate|pawn e5, tries 2
piece h8, check file+knight, tries 2|tries 2, mate|mate, tries 2|silent, mate|pawn d9
""".strip().replace("\n", "|").split("|")

LINES = """
krieg sheet 1|krieg sheet 2|krieg sheet 3|krieg sheet 01|krieg session 1|krieg session 2|krieg record 1|krieg record 2|krieg plan 1|krieg plan 2|krieg
dialect wild16|dialect anytry|dialect plain|dialect|side w|side b|side|list 1|list 2|list 200000|list 200001|list 0|start
end|end over|end left w|end left b|end asks|worst 1|worst 2500|worst 2501|roots 1|roots 100000|roots 100001|roots 0
on silent|on silent / silent|on mate|on silent / silent / silent|play h1h8 0|play h1h8 1|play h1h8 no 0|play g1g8 no 1
play h1h8 100000|play h1h8 100001|w e2e4|b e7e5|w  e2e4|heard silent|opens silent|try e2e4 illegal|try e2e4 ok silent
try e2e4 early|try e2e4 over|try e2e4|try e2e4 ok
krieg refutation 1|krieg refutation 2|moves 1|moves 6|moves 7|moves 0|claims 1|claims 2|claims 20000|claims 20001|claims 0
krieg strategy 1|krieg strategy 2|nodes 1|nodes 2|nodes 100000|nodes 100001|nodes 0|on silent 1|on silent 2|on silent / silent 1
on silent / piece d1 2|on check 1|play h1h8 no 1 0|play g1g8 no 1 1|play h1h8 250000|play h1h8 250001|play h1h8 no 0 0|on silent 0
claim 1 1|claim 2 1|claim 6 200000|claim 7 1|claim 0 1|claim 1 200001|tries 0|tries 1|tries 200000|tries 200001|h1h8 lives|h1h8 stale
h1h8 class silent / silent 1|h1h8 class silent / silent 0|h1h8 class silent 1|h1h8 refused 1|h1h8 refused 0|h1h8 refused|h1h8 class
""".strip().replace("\n", "|").split("|") + [""]

# Texts of forms that the examples may lack.
TEXTS = [
    (text.split()[1], text.strip().encode() + b"\n")
    for text in """
krieg session 2
dialect anytry
start r3k2r/6P1/8/3pP3/8/8/8/R3K2R w KQkq d6
w e5d6
b e8c8
w g7h8q
end left b

krieg session 2
dialect plain
start r3k2r/8/8/8/8/8/8/R3K2R b KQkq - 3 20
b a8a1
w e1f2
b a1h1
end asks

krieg sheet 2
dialect plain
side b
list 1
4k3/8/8/8/8/8/4r3/4K3 w - -
opens check
heard took e2
try e8e7 illegal
end

krieg sheet 2
dialect anytry
side w
list 2
k7/8/K7/8/8/8/8/7R w - -
1k6/8/K7/8/8/8/8/7R w - -
opens silent
end

krieg sheet 1
side b
list 1
7k/5Q2/6K1/8/8/8/8/8 b - -
opens stalemate
try h8g8 over
end

krieg plan 2
dialect wild16
side w
list 1
2k5/8/1K6/8/8/8/8/3R4 b - -
worst 1
roots 1
on silent / silent
play d1d8 0
end

krieg plan 1
side w
list 1
1k6/8/1K6/8/8/8/8/7R w - -
worst 1
roots 1
on silent
play h1a8 no 0
play h1h8 0
end

krieg record 1
start r3k2r/6P1/8/3pP3/8/8/8/R3K2R w KQkq d6
w exd6
b O-O-O
w gxh8=Q
b Rxh8
w Rxh8+
end

krieg record 1
start 4k3/8/8/8/8/8/4P3/4K3 b - - 7 12
b Ke8d7
w e4
b K7d6
end

krieg refutation 1
dialect wild16
side w
moves 2
list 1
7k/7P/7K/8/8/8/8/8 w - -
claims 3
claim 1 1
8/6kP/8/6K1/8/8/8/8 w - -
tries 9
g5f4 lives
g5g4 lives
g5h4 lives
g5f5 lives
g5h5 lives
h7h8q lives
h7h8r lives
h7h8b lives
h7h8n lives
claim 1 1
8/6kP/8/7K/8/8/8/8 w - -
tries 7
h5g4 lives
h5h4 lives
h5g5 lives
h7h8q lives
h7h8r lives
h7h8b lives
h7h8n lives
claim 2 1
7k/7P/7K/8/8/8/8/8 w - -
tries 3
h6g5 class silent / silent 1
h6h5 class silent / silent 2
h6g6 stale
end

krieg refutation 1
dialect plain
side b
moves 1
list 2
8/8/8/8/8/6k1/5p2/7K b - -
8/8/8/8/8/6k1/5p2/5B1K b - -
claims 2
claim 1 1
8/8/8/8/8/6k1/5p2/5B1K b - -
tries 4
g3f3 lives
g3f4 lives
g3g4 lives
g3h4 lives
claim 1 2
8/8/8/8/8/6k1/5p2/7K b - -
8/8/8/8/8/6k1/5p2/5B1K b - -
tries 9
f2f1q refused 1
f2f1r refused 1
f2f1b lives
f2f1n lives
g3f3 lives
g3h3 lives
g3f4 lives
g3g4 lives
g3h4 lives
end

krieg strategy 1
dialect wild16
side w
list 2
k7/8/1K6/8/8/8/8/7R w - -
2k5/8/1K6/8/8/8/8/3n3R w - -
worst 2
nodes 2
play d1d8 0
play h1d1 2
on silent / silent 1
on piece d1 / silent 1
roots 1
on silent 2
end

krieg strategy 1
dialect wild16
side w
list 2
1k6/8/1K6/7n/8/8/8/6RR w - -
1k6/8/1K6/6n1/8/8/8/6RR w - -
worst 1
nodes 2
play h1h8 0
play g1g8 no 1 0
roots 1
on silent 2
end

krieg strategy 1
dialect anytry
side w
list 1
k7/8/1K6/4p3/3P4/8/8/7R b - -
worst 1
nodes 3
play h1h8 0
play h1h8 0
play h1h8 0
roots 3
on tries some / silent 1
on tries some / tries some 2
on tries some / pawn d4 3
end

krieg strategy 1
dialect plain
side w
list 1
6k1/8/5KQ1/8/8/8/8/8 b - -
worst 2
nodes 2
play g7e7 0
play g6g7 1
on check / silent 1
roots 1
on check / silent 2
end
""".split("\n\n")
]

# What a reason of a refutation may say.
REASONS = ["lives", "stale", "refused 1", "refused 2", "refused 0", "refused 9", "refused 40000000000"]
REASONS += [f"class {words} {cited}" for words in ["silent / silent", "silent / pawn h7", "check / silent", "silent"] for cited in "0123"]

BYTES = [b"\n", b"\r", b"\r\n", b"\0", b"\xff", b"\xc3", b"\xef\xbb\xbf", b" ", b"  ", b"\t"]
BYTES += [b"/", b",", b"+", b"-", b".", b"w", b"b"]


def pieces():
    """A line or a part of a line of the formats, by the lists above."""
    lines = LINES + ["start " + p for p in POSITIONS] + POSITIONS
    lines += [form + words for form in ("heard ", "opens ", "on ", "on silent / ", "try h1h8 ok ") for words in WORDS]
    lines += [form % mv for form in ("w %s", "b %s", "try %s illegal", "play %s 0", "play %s no 0") for mv in MOVES]
    lines += [side + mv for side in ("w ", "b ") for mv in ALGEBRAIC]
    lines += [f"h1h8 {reason}" for reason in REASONS]
    lines += [form % n for form in ("list %s", "worst %s", "roots %s", "play h1h8 %s", "krieg plan %s", "krieg record %s") for n in NUMBERS]
    lines += [form % n for form in ("moves %s", "claims %s", "claim 1 %s", "claim %s 1", "tries %s", "h1h8 refused %s") for n in NUMBERS]
    lines += [form % n for form in ("nodes %s", "on silent %s", "on silent / silent %s", "play h1h8 no %s 0", "play h1h8 no 1 %s") for n in NUMBERS]
    return [line.encode() for line in lines]


PIECES = pieces()
