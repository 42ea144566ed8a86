"""Code of compilers for Windows, as a file that links and runs on Linux: directives that GNU's assembler for Linux does
not know are left out, and sections and constants have names that it knows. No instruction changes."""

import re

FLAGS = ["-DWINDOWS", "-ffreestanding", "-fno-asynchronous-unwind-tables"]
CALLED = "windows.S"  # what such code calls beside the player
LEFT_OUT = re.compile(r"\s*\.(def|scl|type|endef|seh_\w+|linkonce|ident|addrsig\w*|file)\b|.*@feat|"
                      r"\s*\.globl\s+_fltused")
REPLACED = [(r"\s*\.section\s+\.rdata.*", "\t.section .rodata"), (r"\s*\.section\s+\.text.*", "\t.text"),
            (r"\b(memcpy|memset)\b", r"ms_\1"), (r"\b__(real|xmm)@", r"\1_")]


def line_in_elf(line):
    if LEFT_OUT.match(line):
        return ""
    for old, new in REPLACED:
        line = re.sub(old, new, line)
    return line


def in_elf(assembly):
    """The text of an assembly file as GNU's assembler for Linux reads it."""
    lines = map(line_in_elf, assembly.splitlines())
    return "\n".join([*lines, '\t.section .note.GNU-stack,"",@progbits', ""])
