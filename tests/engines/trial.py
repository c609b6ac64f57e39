"""What the trials of both engines share: what was written is held to what is due, and what `section` and `standings` do with the same records."""
import os
import subprocess

failed = []


def same(what, wrote, due):
    if wrote != due:
        failed.append(what)
        print("%s: wrote\n%s\nto be\n%s" % (what, wrote, due))


def holds(what, true):
    if not true:
        failed.append(what)
        print("%s: does not hold" % what)


def write(folder, name, lines):
    path = os.path.join(folder, name)
    with open(path, "w") as file:
        file.write(lines if isinstance(lines, str) else "".join(line + "\n" for line in lines))
    return path


def lines_of(*path):
    with open(os.path.join(*path)) as file:
        return file.read().splitlines()


def by_section(folder, lines):
    """What `section -k` and `standings` print, say and exit with, and the file of tallies between them."""
    out = os.path.join(folder, "tallies")
    section = subprocess.run(["build/section", "-k", "-o", out], input="\n".join(lines), capture_output=True, text=True)
    standings = subprocess.run(["build/standings", out], capture_output=True, text=True)
    said = [line for line in section.stderr.splitlines() if not line.startswith(out)]
    with open(out, "rb") as file:
        return standings.stdout, said, max(section.returncode, standings.returncode), file.read()
