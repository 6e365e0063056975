"""What tools/readonly has to find: C sources, each with the child counts of the operations, or a jump table over them, in one form."""

# the lowest and the highest count of operations 0 to 10
COUNTS = [(2, 2)] * 5 + [(1, 1)] * 3 + [(2, 2)] * 2 + [(1, 8)]


def each(form, counts=COUNTS):
    """A C initialiser with an element for each operation."""
    return "{" + ", ".join(form.format(op=op, low=low, high=high) for op, (low, high) in enumerate(counts)) + "}"


def switch(operations, arm, name="f"):
    """A C function that chooses by the operation."""
    arms = " ".join(f"case {op}: return {arm.format(op=op, low=COUNTS[op][0])};" for op in operations)
    return f"unsigned {name}(unsigned op) {{ switch (op) {{ {arms} default: return 0; }} }}\n"


HEAD = "#include <stdint.h>\nvoid give(const void *);\n" + "".join(f"unsigned c{op}(unsigned);\n" for op in range(11))
MAIN = "int main(void) { return 0; }\nvoid give(const void *p) { (void)p; }\n"
MAIN += "".join(f"unsigned c{op}(unsigned x) {{ return x + {op}; }}\n" for op in range(11))
TWO_BITS = sum(low << 2 * op for op, (low, _) in enumerate(COUNTS))
# what is to be found, its name, and the C source; compiled for no fixed address unless its name says so
PLANTS = (
    # two without COUNTS, by which all else here goes
    ("array.* 0 to 10", "lowest, by hand", "const uint8_t a[] = {2, 2, 2, 2, 2, 1, 1, 1, 2, 2, 1};"),
    ("array.* 0 to 10", "highest, by hand", "const uint8_t a[] = {2, 2, 2, 2, 2, 1, 1, 1, 2, 2, 8};"),
    *(("array.* 0 to 10", f"lowest in {size} bytes", f"const uint{8 * size}_t a[] = {each('{low}')};") for size in (1, 2, 4, 8)),
    *(("array.* 0 to 10", f"highest, {step}", f"const uint8_t a[] = {each('{high}', COUNTS[::step])};") for step in (1, -1)),
    *(("array.* 5 to 10", one, f"const uint8_t a[] = {each(one, COUNTS[5:])};") for one in ("{low}", "{high}")),
    *(("array.* 0 to 10", one, f"const struct {{ int x, y; }} a[] = {each(one)};") for one in ("{{{low}, {high}}}", "{{{high}, {low}}}")),
    *(("array.* 0 to 10", one, f"const uint16_t a[] = {each(one)};") for one in ("{low}+256*{high}", "{low}+16*{high}", "{high}+16*{low}")),
    ("array.* 0 to 10", "rows of eight", f"const struct {{ uint16_t x[8]; }} a[] = {each('{{{{{op}, 7, {low}, {high}, 9}}}}')};"),
    ("array.* 0 to 10", "rows of 64 bytes", f"const struct {{ uint64_t x[8]; }} a[] = {each('{{{{9, 3, {low}}}}}')};"),
    ("array.* 0 to 10", "rows with an address", f"const struct {{ const void *at; int low; }} a[] = {each('{{a + {op}, {low}}}')};"),
    ("array.* 0 to 10", "in code", f"__attribute__((section(\".text.a\"))) const uint8_t a[] = {each('{low}')};"),
    ("array.* 0 to 10", "a switch that gcc makes one", switch(range(11), "{low} + 256 * (7 * {op} % 11)")),
    ("bits.* 0 to 10", "2 each", f"const uint32_t a[] = {{7, {TWO_BITS}, 9}};"),
    ("bits.* 0 to 9", "4 each", f"const uint64_t a[] = {{{sum(high << 4 * op for op, (_, high) in enumerate(COUNTS))}}};"),
    ("immediate.* 0 to 10", "2 each", f"unsigned f(unsigned op) {{ return {TWO_BITS}u >> 2 * op & 3; }}"),
    ("immediate.* 5 to 10", "8 each", "unsigned f(unsigned op) { return 0x080202010101u >> 8 * op & 255; }"),
    *(("written.* 0 to 10", f"{size} bytes", f"void f(void) {{ uint{8 * size}_t a[] = {each('{low}')}; give(a); }}") for size in (1, 2, 8)),
    ("written.* 0 to 10", "and over", f"void f(void) {{ char a[] = {each('{low}')}; give(a); __builtin_memset(a, 7, 11); give(a); }}"),
    ("written.* 0 to 10", "pairs", f"void f(void) {{ struct {{ char x, y; }} a[] = {each('{{{low}, {high}}}')}; give(a); }}"),
    ("written.* 0 to 10", "lent memory", f"void f(char *p) {{ uint8_t a[] = {each('{high}')}; __builtin_memcpy(p - 5, a, 11); }}"),
    *(("table.* 11 entries", f"operations 0 to 10{fixed}", switch(range(11), "c{op}(op)")) for fixed in ("", ", fixed")),
    ("table.* 11 entries", "functions", "".join(f"static unsigned s{op}(unsigned x) {{ return {op} * c{op}(x); }}\n" for op in range(11))
     + f"unsigned (*const a[])(unsigned) = {each('s{op}')};\nunsigned f(unsigned op) {{ return a[op](op); }}"),
    *(("unknown: 2 jump tables of 6 entries", f"operations 3 to 8, two functions{fixed}",
       switch(range(3, 9), "c{op}(op)") + switch(range(3, 9), "c{op}(7)", "g")) for fixed in ("", ", fixed")),
    ("jump", "by a pointer", "unsigned f(unsigned (*p)(unsigned)) { return p(3); }"),
    ("nothing", "clean", "unsigned f(unsigned op) { return op > 10 ? 0 : op - 5 < 3 ? 1 : op == 10 ? 8 : 2; }\n"
     "const uint16_t a[] = {1, 2, 3, 4, 5, 6, 7, 8, 9, 10, 11}, b[] = {2, 2, 2, 2, 2, 2, 2, 2, 1, 1, 1, 1, 1, 1, 1, 1};\n"
     "unsigned k(unsigned x) { switch (x) { case 0: return c0(x); case 1: return c1(x); case 2: return c2(x); default: return 0; } }"),
)
