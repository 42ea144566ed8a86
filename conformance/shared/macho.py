"""clang's code for arm64-apple-macos, as a file that links and runs on Linux: an emulator of Apple's system is not at
hand, and the instructions are the same. Sections have their names in ELF, symbols lose the underscore before them, and
an address is told as GNU's assembler reads it. No instruction changes."""

import re

SECTIONS = {"__TEXT,__text": ".text", "__TEXT,__const": ".section .rodata", "__TEXT,__cstring": ".section .rodata",
            "__TEXT,__literal4": ".section .rodata", "__TEXT,__literal8": ".section .rodata",
            "__TEXT,__literal16": ".section .rodata", "__DATA,__const": ".data", "__DATA,__data": ".data"}
# Directives that say nothing of code or data.
LEFT_OUT = (".build_version", ".loh", ".subsections_via_symbols")
# What clang is told: the target, and to write the words that GNU's assembler knows.
SYNTAX = ["-mllvm", "-aarch64-neon-syntax=generic"]
FLAGS = ["--target=arm64-apple-macos11", *SYNTAX, "-ffreestanding"]
# How GNU's assembler is told which part of an address is meant, or of the place of the table that has it.
PARTS = {"PAGE": "", "PAGEOFF": ":lo12:", "GOTPAGE": ":got:", "GOTPAGEOFF": ":got_lo12:"}


def line_in_elf(line):
    if line.lstrip().startswith((".ascii", ".asciz")):
        return line
    text = line.split(";")[0].rstrip()  # without the comment
    words = text.split(None, 1)
    if not words or words[0] in LEFT_OUT:
        return ""
    if words[0] == ".section":
        return "\t" + SECTIONS[",".join(words[1].split(",")[:2])]
    text = re.sub(r"(?<![\w.])_(\w+)", r"\1", text)
    return re.sub(r"([\w.]+)@(\w+)", lambda match: PARTS[match[2]] + match[1], text)


def in_elf(assembly):
    """The text of an assembly file as GNU's assembler for Linux reads it. A section or a directive that is not known
    is an error here or there."""
    return "\n".join(map(line_in_elf, assembly.splitlines())) + "\n"
