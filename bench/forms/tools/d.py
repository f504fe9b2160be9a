"""D's own reading, by ldc: `mixin("TEXT")` for each text, of one token."""
import re
import subprocess
import sys
import tempfile

# a sign is an operator, but after an exponent's mark; a suffix isn't of the form, nor a property
ONE = re.compile(r"(?:0[xX](?:[\w.]|(?<=[pP])[+-])*|(?!0[xX])\.?[0-9](?:[\w.]|(?<=[eE])[+-])*)"
                 r"(?<![uULfFi])|"
                 r"0[xX][\w]*[fF]")
PROPERTY = re.compile(r"^(?!0[xX]).*\.[a-z]{3}|\.max")
HEAD = r"""
import core.stdc.stdio, core.stdc.string;
void show(T)(T value) {
    static if (__traits(isFloating, T)) {
        ulong bits; double held = value; memcpy(&bits, &held, 8); printf("f%016lx\n", bits);
    } else printf("i%lu\n", cast(ulong) value);
}
void ask(string text)() {
    static if (__traits(compiles, { auto x = mixin(text); })) show(mixin(text)); else puts("-");
}
"""


def answers(texts):
    """The answers of one program. What ends the compiler is asked one by one."""
    calls = "".join(f'    ask!("{it}");\n' for it in texts)
    with tempfile.TemporaryDirectory() as folder:
        with open(f"{folder}/a.d", "w") as file:
            file.write(f"{HEAD}extern(C) void main() {{\n{calls}}}\n")
        made = subprocess.run(["ldc2", "-betterC", "-verrors=0", "-O0", "a.d"], cwd=folder,
                              stderr=subprocess.PIPE, stdout=subprocess.PIPE)
        if made.returncode and len(texts) > 1:
            half = len(texts) // 2
            return answers(texts[:half]) + answers(texts[half:])
        if made.returncode:
            return ["-"]
        return subprocess.run(["./a"], cwd=folder, stdout=subprocess.PIPE, text=True).stdout.split()


texts = sys.stdin.read().split("\n")[:-1]
asked = [it for it in texts if ONE.fullmatch(it) and not PROPERTY.search(it)]
found = {}
for start in range(0, len(asked), 2000):
    part = asked[start:start + 2000]
    found.update(zip(part, answers(part)))
for text in texts:
    print(found.get(text, "-"))
