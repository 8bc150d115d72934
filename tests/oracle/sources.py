"""Draws C programs of pieces, each of which does what a debugger can get wrong."""
from __future__ import annotations

import random
from typing import Callable, Dict, Iterator, List, NamedTuple, Tuple

HEAD = """typedef unsigned int word;
#define OWN __attribute__((noinline, noclone))
int raw_sum(int, int), sized_sum(int, int), raw_twice(int, int);
int through(void *, int), bounce(void *, int);
static inline int sys(int n, int a, int b, int c)
{
    register int a0 __asm__("a0") = a;
    register int a1 __asm__("a1") = b;
    register int a2 __asm__("a2") = c;
    register int a7 __asm__("a7") = n;
    __asm__ volatile("ecall" : "+r"(a0) : "r"(a1), "r"(a2), "r"(a7) : "memory");
    return a0;
}
void *memcpy(void *to, const void *from, word n)
{
    char *at = to;
    const char *source = from;
    while (n--)
        *at++ = *source++;
    return to;
}
void *memset(void *to, int byte, word n)
{
    char *at = to;
    while (n--)
        *at++ = byte;
    return to;
}
static OWN void put(const char *text)
{
    int n = 0;
    while (text[n])
        n++;
    sys(64, 1, (int)text, n);
}
static OWN void put_number(word n)
{
    char digits[12];
    int at = 11;
    digits[11] = '\\n';
    do {
        digits[--at] = '0' + n % 10;
        n /= 10;
    } while (n);
    sys(64, 1, (int)(digits + at), 12 - at);
}
"""


class Piece(NamedTuple):
    """Definitions, and what main does with them: `got` is an int that it may change."""
    code: str
    call: str


Draw = random.Random
Maker = Callable[[Draw, str], Piece]


def expression(draw: Draw, names: List[str], depth: int = 0) -> str:
    if depth > 2 or draw.random() < 0.3:
        return draw.choice(names + [str(draw.randrange(1, 200))])
    one, other = (expression(draw, names, depth + 1) for _ in range(2))
    return f"({one} {draw.choice(['+', '-', '*', '^', '&', '|'])} {other})"


def recursion(draw: Draw, n: str) -> Piece:
    depth = draw.randrange(4, 10)
    return Piece(f"""int cell{n};
OWN int walk{n}(int n, int from)
{{
    cell{n} += from;
    return n < 2 ? n : walk{n}(n - 1, from + 1) + walk{n}(n - 2, {expression(draw, ['n', 'from'])});
}}
""", f"got += walk{n}({depth}, {draw.randrange(3)});")


def mutual(draw: Draw, n: str) -> Piece:
    return Piece(f"""int turns{n};
OWN int odd{n}(word n);
OWN int even{n}(word n) {{ turns{n}++; return n ? odd{n}(n - 1) : {draw.randrange(1, 9)}; }}
OWN int odd{n}(word n) {{ turns{n} += 2; return n ? even{n}(n - 1) : 0; }}
""", f"got += even{n}({draw.randrange(1, 40)}); turns{n} = 0;")


def rounds(draw: Draw, n: str) -> Piece:
    times = draw.choice([10, 60, 300, 300, 11000])
    return Piece(f"""int total{n}, after{n};
OWN int step{n}(int a) {{ __asm__ volatile(""); return a ^ {draw.randrange(1, 99)}; }}
OWN void note{n}(int v) {{ after{n} = v; }}
OWN int far{n}(int rounds)
{{
    int got = 0;
    after{n} = rounds;
    note{n}(1);
    for (int i = 0; i < rounds; i++)
        got += step{n}(i);
    __asm__ volatile("j 1f\\n1:");
    after{n}++;
    return got;
}}
""", f"total{n} = far{n}({times}); after{n} = {draw.randrange(9)};")


def seldom(draw: Draw, n: str) -> Piece:
    times = draw.choice([100, 1000, 1000, 25000])
    return Piece(f"""int rare{n}; word state{n} = {draw.randrange(1, 1 << 30)};
OWN word next{n}(void)
{{
    state{n} ^= state{n} << 13; state{n} ^= state{n} >> 17; state{n} ^= state{n} << 5;
    return state{n};
}}
OWN void seldom{n}(int v) {{ rare{n} = v; }}
OWN int run{n}(int n)
{{
    for (int i = 0; i < n; i++)
        if (next{n}() % {draw.choice([7, 50, 1000])} == 3)
            rare{n}++;
    seldom{n}(n);
    rare{n}++;
    return n;
}}
""", f"got += run{n}({times}); rare{n} = 0;")


def assembly(draw: Draw, n: str) -> Piece:
    several = draw.sample(["raw_sum", "sized_sum", "raw_twice"], draw.randrange(1, 4))
    calls = " + ".join(f"{name}({draw.randrange(9)}, {draw.randrange(6)})" for name in several)
    return Piece(f"int sums{n};\n", f"sums{n} = {calls}; got += sums{n};")


def indirect(draw: Draw, n: str) -> Piece:
    return Piece(f"""int went{n};
OWN int one{n}(int a) {{ went{n} = a; return a + {draw.randrange(1, 9)}; }}
OWN int two{n}(int a) {{ went{n} += a; return a * {draw.randrange(2, 9)}; }}
int (*volatile ways{n}[2])(int) = {{ one{n}, two{n} }};
OWN int choose{n}(int a) {{ return ways{n}[a & 1](a); }}
""", f"for (int i = 0; i < {draw.randrange(2, 12)}; i++) "
        f"got += choose{n}(i) + through(one{n}, i) + bounce(two{n}, i);")


def reads(draw: Draw, n: str) -> Piece:
    size = draw.randrange(5, 40)
    ask = draw.randrange(1, 30)
    return Piece(f"""char text{n}[{size + 30}]; int count{n};
OWN int count_of{n}(const char *text, int size, char what)
{{
    int found = 0;
    for (int i = 0; i < size; i++)
        if (text[i] == what) {{ found++; count{n}++; }}
    return found;
}}
""", f"""for (int i = 0; i < {size}; i++) text{n}[i] = i;
    sys(63, 0, (int)text{n} + {draw.randrange(3)}, {ask});
    text{n}[{draw.randrange(size)}] = 'z';
    got += count_of{n}(text{n}, {size}, '{draw.choice('abxz')}');""")


def echo(draw: Draw, n: str) -> Piece:
    size = draw.randrange(3, 20)
    return Piece(f"""char heard{n}[24];
OWN int answer{n}(int size)
{{
    int got = sys(63, 0, (int)heard{n} + {draw.randrange(4)}, size);
    heard{n}[1] = '{draw.choice('xyz')}';
    sys(64, {draw.choice([1, 1, 2])}, (int)heard{n}, {draw.randrange(1, 24)});
    return got + heard{n}[{draw.randrange(size)}];
}}
""", f"got += answer{n}({size}); sys(64, 1, (int)heard{n}, {size});")


def loops(draw: Draw, n: str) -> Piece:
    return Piece(f"""int last{n};
OWN int length{n}(const char *text) {{ const char *at = text; while (*at) at++; return at - text; }}
OWN word gcd{n}(word a, word b) {{ while (b) {{ word c = a % b; a = b; b = c; }} return a; }}
OWN word twice{n}(word *p, word n)
{{
    do {{ *p = gcd{n}(*p, {draw.randrange(100, 500)}); }} while (--n); return *p;
}}
OWN int sum{n}(int *p, int n) {{ while (n) {{ last{n} = *p++; n--; }} return last{n}; }}
int cells{n}[4] = {{ 1, 2, 3, 0 }};
""", f"{{ word v = {draw.randrange(1000, 2000)}; "
        f"got += length{n}(\"some text\") + twice{n}(&v, 2) + sum{n}(cells{n}, 4); }}")


def moves(draw: Draw, n: str) -> Piece:
    return Piece(f"""char from{n}[8] = "abcdefg", to{n}[8];
OWN void move{n}(char *to, const char *from, int n) {{ while (n--) *to++ = *from++; }}
""", f"move{n}(to{n}, from{n}, {draw.randrange(1, 4)}); "
        f"move{n}(to{n}, from{n}, {draw.randrange(4, 8)}); got += to{n}[2];")


def numbers(draw: Draw, n: str) -> Piece:
    return Piece(f"""OWN int much{n}(int a) {{ return a * {draw.randrange(10000000, 70000000)}; }}
OWN unsigned char low{n}(int a) {{ return a; }}
OWN short high{n}(short a, unsigned char b) {{ return a * b - {draw.randrange(300)}; }}
OWN long long wide{n}(long long a, int b) {{ return a * b + {draw.randrange(1 << 20)}; }}
OWN void nothing{n}(int unused, int used) {{ __asm__ volatile("" :: "r"(used)); }}
struct pair{n} {{ char tag; short part; int value; const char *name; }} pairs{n}[3];
""", f"""for (int i = 0; i < 3; i++) {{
        pairs{n}[i].tag = low{n}(much{n}(i + 1));
        pairs{n}[i].part = high{n}(i - 9, pairs{n}[i].tag);
        pairs{n}[i].value = wide{n}(-i, {draw.randrange(1, 1000)});
        pairs{n}[i].name = "name" + i;
        nothing{n}(i, got);
    }}
    got += pairs{n}[1].part + pairs{n}[2].name[0];""")


def same_again(draw: Draw, n: str) -> Piece:
    data = f"int same{n} = {draw.randrange(9)}; short half{n}[4]; unsigned char bytes{n}[8];\n"
    return Piece(data, f"""__atomic_fetch_or(&same{n}, 0, __ATOMIC_SEQ_CST);
    for (int i = 0; i < 8; i++)
    {{ bytes{n}[i] = i * {draw.randrange(3, 99)}; half{n}[i & 3] = bytes{n}[i] - 50; }}
    __atomic_store_n(&same{n}, same{n}, __ATOMIC_SEQ_CST);
    if (same{n} > {draw.randrange(9)}) got++;""")


def conditional(draw: Draw, n: str) -> Piece:
    """By load-reserved and store-conditional, which stores 0 as well, and what was there."""
    return Piece(f"""int slot{n} = 3;
OWN int put{n}(int old, int new)
{{
    __atomic_compare_exchange_n(&slot{n}, &old, new, 0, __ATOMIC_SEQ_CST, __ATOMIC_SEQ_CST);
    return old;
}}
""", f"got += put{n}(3, 0) + put{n}(0, 0) + put{n}(0, {draw.randrange(1, 9)}) "
        f"+ put{n}(99, 1) + slot{n};")


def calculation(draw: Draw, n: str) -> Piece:
    code = ""
    names: List[str] = []
    for i in range(draw.randrange(2, 6)):
        name = f"f{n}_{i}"
        body = expression(draw, ["a", "b", f"shared{n}"])
        callee = f" + {draw.choice(names)}(b, a)" if names and draw.random() < 0.7 else ""
        own = draw.choice(["OWN", "OWN", "static", ""])
        code += (f"{own} int {name}(int a, int b) {{ shared{n} = {body}; "
                 f"return {expression(draw, ['a', 'b'])}{callee}; }}\n")
        names.append(name)
    calls = " ".join(f"got ^= {name}(got, {draw.randrange(99)});" for name in names)
    return Piece(f"int shared{n};\n" + code,
                 f"for (int i = 0; i < {draw.randrange(1, 9)}; i++) {{ {calls} }}")


def said(draw: Draw, n: str) -> Piece:
    return Piece(f'const char *const words{n}[] = {{ "one\\n", "two words\\n", "three\\n" }};\n',
                 f"for (int i = 0; i < 3; i++) put(words{n}[i]); put_number(got);")


def threads(draw: Draw, n: str) -> Piece:
    return Piece(f"""int lock{n}, guarded{n}, open{n}, readers{n}, seen{n}[16], value{n} = 64;
OWN void take{n}(int *lock) {{ while (__atomic_exchange_n(lock, 1, __ATOMIC_ACQUIRE)) ; }}
OWN void give{n}(int *lock) {{ __atomic_store_n(lock, 0, __ATOMIC_RELEASE); }}
OWN int look{n}(int h)
{{
    __atomic_fetch_add(&readers{n}, 1, __ATOMIC_ACQUIRE);
    int got = value{n};
    seen{n}[h] += got;
    __atomic_fetch_sub(&readers{n}, 1, __ATOMIC_RELEASE);
    return got;
}}
OWN void share{n}(int h, int times)
{{
    for (volatile int i = 0; i < times; i++) {{
        take{n}(&lock{n});
        guarded{n} += h;
        give{n}(&lock{n});
        open{n}++;
        look{n}(h);
    }}
}}
""", f"share{n}(h, {draw.randrange(3, 25)});")


MAKERS: Dict[str, Maker] = {
    "recursion": recursion, "mutual": mutual, "rounds": rounds, "seldom": seldom,
    "assembly": assembly, "indirect": indirect,
    "reads": reads, "echo": echo, "loops": loops, "moves": moves, "numbers": numbers,
    "same": same_again, "conditional": conditional,
    "calculation": calculation, "said": said}
ENDS = {
    "exit": "return got & 63;",
    "fault": "{ int *volatile lost = (int *)((got & 0xffff) + 0x7fff0000); return *lost; }",
    "null": "{ static char *volatile none; return none[got & 7]; }",
    "store": "{ *(volatile int *)0x10100 = got; return 0; }",
    "hang": "{ flag = 0; for (int i = 0; i < 300; i++) work++; "
    "while (!*(volatile int *)&flag) ; return 0; }",
    "count": "{ flag = 0; while (!*(volatile int *)&flag) *(volatile int *)&work += 1; return 0; }",
    "atomic": "{ __atomic_store_n(&flag, 0, __ATOMIC_SEQ_CST); while (!__atomic_load_n(&flag, "
    "__ATOMIC_RELAXED)) ; return 0; }",
    "jump": "{ void (*volatile off)(void) = (void (*)(void))((got & 0xfffc) | 0x40000000); "
    "off(); return 0; }",
}


# What harts but the first do then.
OTHERS = ("if (h) { return 0; }",
          "if (h) { while (*(volatile int *)&flag < 77) *(volatile int *)&work += h; return 0; }")


def program(draw: Draw, harts: int, names: List[str], end: str) -> str:
    """A program of these pieces."""
    pieces: List[Tuple[str, Piece]] = [(name, MAKERS[name](draw, str(at)))
                                       for at, name in enumerate(names)]
    shared = threads(draw, "t") if harts > 1 else Piece("", "")
    calls = "\n    ".join(piece.call for _, piece in pieces)
    others = draw.choice(OTHERS) if harts > 1 else ""
    codes = "".join(piece.code for _, piece in pieces)
    return (HEAD + "int flag = 5, work;\n" + shared.code + codes + f"""
int main(int h, int harts)
{{
    int got = harts;
    {shared.call}
    {others}
    {calls}
    {ENDS[end]}
}}
""")


def drawn_program(draw: Draw, harts: int) -> str:
    names = draw.sample(sorted(MAKERS), draw.randrange(3, 8))
    return program(draw, harts, names, draw.choice(sorted(ENDS)))


HEAP = """
void *malloc(word), *calloc(word, word), *realloc(void *, word);
void free(void *);
struct node {
    word value;
    struct node *next;
    unsigned char bytes[12];
};
static unsigned char *blocks[4];
static struct node *list;
static OWN word get(const unsigned char *from, word at)
{
    return from[at];
}
static OWN void set(unsigned char *to, word at, word value)
{
    to[at] = value;
}
static OWN word sum(const unsigned char *from, word size)
{
    word got = 0;
    for (word i = 0; i < size; i++)
        got += from[i];
    return got;
}
static OWN void push(word value)
{
    struct node *node = malloc(sizeof *node);
    node->value = value;
    node->next = list;
    list = node;
}
static OWN word pop(void)
{
    struct node *node = list;
    word value = node->value;
    list = node->next;
    free(node);
    return value;
}
"""


def drawn_free(draw: random.Random, i: int, size: int) -> Iterator[str]:
    """A block is given back, at times used then, and another one taken."""
    yield f"free(blocks[{i}]);"
    if draw.random() < 0.15:
        yield draw.choice([f"got += get(blocks[{i}], 0);", f"set(blocks[{i}], 0, 7);",
                           f"free(blocks[{i}]);"])
    yield f"blocks[{i}] = malloc({size});"


def drawn_heap_program(draw: random.Random) -> str:
    """Blocks that are taken, written, read and given back, most of them rightly."""
    code = [f"blocks[{i}] = malloc({4 + 8 * i});" for i in range(4)]
    sizes = [4, 12, 20, 28]
    lists = 0
    for _ in range(draw.randrange(10, 60)):
        i = draw.randrange(4)
        kind = draw.random()
        at = draw.randrange(sizes[i])
        wrong = draw.choice([0, 0, 0, 0, 0, sizes[i], sizes[i] + 3])
        if kind < 0.2:
            code.append(f"set(blocks[{i}], {at if not wrong else wrong + draw.randrange(4)}, "
                        f"{draw.randrange(1, 255)});")
        elif kind < 0.35:
            code.append(f"got += get(blocks[{i}], "
                        f"{at if not wrong else wrong + draw.randrange(4)});")
        elif kind < 0.42:
            code.append(f"if (get(blocks[{i}], {at}) & 1) got++;")
        elif kind < 0.5:
            code.append(f"memset(blocks[{i}], {draw.randrange(200)}, {sizes[i]});")
        elif kind < 0.56:
            code.append(f"got += sum(blocks[{i}], {sizes[i]});")
        elif kind < 0.64:
            code.append(f"push({draw.randrange(1000)});")
            lists += 1
        elif kind < 0.7 and lists:
            code.append("got += pop();")
            lists -= 1
        elif kind < 0.8:
            sizes[i] = draw.randrange(1, 40)
            calls = f"realloc(blocks[{i}], {sizes[i]})", f"calloc({sizes[i]}, 1)"
            code.append(f"blocks[{i}] = {draw.choice(calls)};")
        elif kind < 0.95:
            sizes[i] = draw.randrange(1, 40)
            code += drawn_free(draw, i, sizes[i])
        else:
            code.append(f"put_number(sum(blocks[{i}], {sizes[i]}));")
    return (HEAD + HEAP + "int main(int hart, int harts)\n{\n    word got = 0;\n    "
            + "\n    ".join(code) + "\n    put_number(got);\n    return got & 15;\n}\n")
