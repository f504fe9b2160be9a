"""MariaDB's own reading, by a server of its own: `select TEXT`, of one token. The kind of a number
isn't asked."""
import re
import struct
import subprocess
import sys
import tempfile
import time

# a sign is an operator, but after an exponent's mark
ONE = re.compile(r"0[xXbB]\w*|(?!0[xXbB])\.?[0-9](?:[\w.]|(?<=[eE])[+-])*")


def bits(text):
    return "d" + struct.pack(">d", float(text)).hex()


def answers(room, texts):
    server = subprocess.Popen(
        ["mariadbd", "--no-defaults", f"--datadir={room}", f"--socket={room}/socket",
         "--skip-networking", "--skip-grant-tables", "--user=root", "--innodb=OFF",
         "--default-storage-engine=Aria", f"--lc-messages-dir=/usr/share/mysql"],
        stdout=subprocess.DEVNULL, stderr=subprocess.DEVNULL)
    client = ["mariadb", "--no-defaults", f"--socket={room}/socket", "--batch", "--force",
              "--skip-column-names"]
    try:
        while subprocess.run([*client, "-e", "select 1"], stderr=subprocess.DEVNULL,
                             stdout=subprocess.DEVNULL).returncode:
            assert server.poll() is None, "mariadbd ended"
            time.sleep(0.5)
        query = "".join(f"select {n}, ({it}) + 0;\n" for n, it in enumerate(texts))
        run = subprocess.run(client, input=query, stdout=subprocess.PIPE,
                             stderr=subprocess.DEVNULL, text=True)
        return dict(line.split("\t") for line in run.stdout.splitlines())
    finally:
        server.terminate()
        server.wait()


texts = sys.stdin.read().split("\n")[:-1]
asked = [it for it in texts if ONE.fullmatch(it)]
with tempfile.TemporaryDirectory() as room:
    said = answers(room, asked)
found = {it: bits(said[str(n)]) for n, it in enumerate(asked) if str(n) in said}
for text in texts:
    print(found.get(text, "-"))
