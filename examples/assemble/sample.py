"""The assembler text of the sample of so many blocks, as docs/USING.md has it."""

PAIRS = [(0, 1), (0, 2), (0, 3), (1, 2), (1, 3), (2, 3)]


def sample_text(blocks):
    lines = ["class 0021 Sample java/lang/Object", "method 0009 run (IIII)I 2 5", "iconst_0", "istore 4"]
    for block in range(blocks):
        first, second = PAIRS[block % 6]
        lines += [f"iload {first}", f"iload {second}", f"if_icmpge L{block}", "iinc 4 1", f":L{block}"]
    return "".join(f"{line}\n" for line in [*lines, "iload 4", "ireturn", "end"])
