"""What callgrind saw of a program's instructions, and the instructions that there are.

`seen` reads what `valgrind --tool=callgrind --dump-instr=yes --collect-jumps=yes` wrote; `functions` reads the program's disassembly; `members` tells by the
linker's map which member of which archive a function is from, since two members can have functions of the same name."""
import collections
import re
import subprocess

# Instructions that only fill the space up to a jump's target: they are counted where they ran, and not otherwise.
FILLING = re.compile(r"(data16|cs|nop\w*|xchg +%ax,%ax|int3)\b")
NO_CONDITION = ("jmp", "jmpq")

Instruction = collections.namedtuple("Instruction", "address text")


def seen(path, program):
    """By address in the program: how often each instruction ran, and how often each conditional jump was taken."""
    ran, taken = collections.Counter(), collections.Counter()
    objects, inside, position, awaited = {}, False, 0, None
    with open(path) as lines:
        for line in lines:
            first = line[0]
            if first in "0123456789+-*":
                words = line.split()
                position = at(words[0], position)
                if awaited is None:
                    if inside:
                        ran[position] += int(words[2])
                elif awaited and inside:
                    taken[position] += awaited
                awaited = None
            elif line.startswith("jcnd="):
                awaited = int(line[5:line.index("/")])
            elif line.startswith(("jump=", "calls=")):
                awaited = 0
            elif line.startswith(("ob=", "cob=")):
                number, _, name = line[line.index("=") + 1:].rstrip("\n").partition(" ")
                if name:
                    objects[number] = name
                if first == "o":
                    inside = objects[number] == program
    return ran, taken


def at(word, position):
    """A position, absolute, as before, or so far from the one before."""
    if word.startswith("0x"):
        return int(word, 16)
    return position if word == "*" else position + int(word)


def functions(program):
    """The program's functions in the order of their addresses: name, and instructions."""
    listing = subprocess.run(["objdump", "-d", "--no-show-raw-insn", program], stdout=subprocess.PIPE, text=True, check=True).stdout
    found = []
    for line in listing.splitlines():
        head = re.match(r"([0-9a-f]+) <(.+)>:$", line)
        if head:
            found.append((head[2], []))
            continue
        one = re.match(r"\s+([0-9a-f]+):\s+(\S.*)", line)
        if one and found:
            found[-1][1].append(Instruction(int(one[1], 16), re.sub(r"\s+#.*", "", one[2].strip())))
    return found


def members(path):
    """By address: the archive and its member that the linker's map names for the section that stands there."""
    with open(path) as lines:
        sections = re.findall(r"^ \.text\S*\s+0x([0-9a-f]+)\s+0x[0-9a-f]+ (\S+)\((\S+)\.o\)$", lines.read(), re.M)
    return {int(address, 16): (archive, member) for address, archive, member in sections}


def conditional(instruction):
    word = instruction.text.split()[0]
    return word.startswith("j") and word not in NO_CONDITION


def filling(instruction):
    return FILLING.match(instruction.text) is not None
