"""Ada's own reading, by GNAT: `X : constant := TEXT;`, one a line, and the values by a program."""
import re
import subprocess
import sys
import tempfile

# a sign is an operator, but after an exponent's mark
ONE = re.compile(r"[0-9](?:[\w.]|(?<=[eE])[+-])*")
SHOW = """with Ada.Text_IO; with Ada.Unchecked_Conversion; with Interfaces;
procedure B is
   type Long is range -2 ** 127 .. 2 ** 127 - 1;
   function Bits is new Ada.Unchecked_Conversion (Long_Float, Interfaces.Integer_64);
   procedure P (X : Long) is
   begin
      Ada.Text_IO.Put_Line ("i" & Long'Image (X));
   end P;
   procedure P (X : Long_Float) is
   begin
      Ada.Text_IO.Put_Line ("f" & Interfaces.Integer_64'Image (Bits (X)));
   end P;
"""
# an integer may be too large
CALL = 'begin P (%s); exception when others => Ada.Text_IO.Put_Line ("i?"); end;'


def refused(folder, name, source):
    """The lines that GNAT refuses."""
    with open(f"{folder}/{name}", "w") as file:
        file.write(source)
    run = subprocess.run(["gnatmake", "-q", "-gnatm999999", "-gnatws", name], cwd=folder,
                         stdout=subprocess.PIPE, stderr=subprocess.STDOUT, text=True)
    return {int(line) for line in re.findall(rf"^{name}:(\d+):", run.stdout, re.M)}, run.stdout


def answers(folder, texts):
    """Syntax first: an error of it may hide the others."""
    head = "package A is\n"
    source = "".join(f"   X{n} : constant := {it};\n" for n, it in enumerate(texts))
    with open(f"{folder}/a.ads", "w") as file:
        file.write(f"{head}{source}end A;\n")
    run = subprocess.run(["gcc", "-c", "-gnats", "-gnatm999999", "-gnatws", "a.ads"], cwd=folder,
                         stderr=subprocess.PIPE, text=True)
    lines = {int(line) for line in re.findall(r"^a\.ads:(\d+):", run.stderr, re.M)}
    valid = [it for n, it in enumerate(texts, 2) if n not in lines]
    while valid:
        lines, said = refused(folder, "b.adb", SHOW + "begin\n"
                              + "".join(f"   {CALL % it}\n" for it in valid) + "end B;\n")
        if not lines:
            break
        first = SHOW.count("\n") + 2
        assert min(lines) >= first, said
        valid = [it for n, it in enumerate(valid, first) if n not in lines]
    if not valid:
        return {}
    run = subprocess.run(["./b"], cwd=folder, stdout=subprocess.PIPE, text=True)
    return dict(zip(valid, map(written, run.stdout.splitlines())))


def written(said):
    if said == "i?":
        return said
    number = int(said[1:])
    return f"f{number % (1 << 64):x}" if said[0] == "f" else f"i{number}"


texts = sys.stdin.read().split("\n")[:-1]
asked = [it for it in texts if ONE.fullmatch(it)]
found = {}
for start in range(0, len(asked), 2000):
    with tempfile.TemporaryDirectory() as folder:
        found.update(answers(folder, asked[start:start + 2000]))
for text in texts:
    print(found.get(text, "-"))
