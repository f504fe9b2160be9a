"""PostgreSQL's own readings, by a server of its own: POSTGRESQL, of a literal in a query, and
POSTGRESQL_NUMERIC, of a cast."""
import os
import pwd
import re
import subprocess
import sys
import tempfile

HOME = "/usr/lib/postgresql/15/bin"
IS_LITERAL = os.environ["FORM"] == "POSTGRESQL"
# a sign is an operator, but after an exponent's mark
ONE = re.compile(r"\.?[0-9](?:[\w.]|(?<=[eE])[+-])*" if IS_LITERAL else r"[^ ]+")
# one subtransaction a text, as an error ends it
READ = r"""
create function bits(number numeric) returns text language plpgsql as $$
begin
    return 'f' || encode(float8send(number::float8), 'hex');
exception when others then
    return 'f?';
end $$;
create function answer(text text) returns text language plpgsql as $$
declare
    number numeric;
    kind text;
begin
    %s
    if number = 'NaN' or kind = 'numeric' or kind = 'double precision' then
        return bits(number);
    end if;
    return 'i' || number;
exception when others then
    return case when sqlstate = '22003' then 'f?' else '-' end;
end $$;
"""
LITERAL = "execute 'select (' || text || ')::numeric, pg_typeof(' || text || ')' into number, kind;"
CAST = "number := text::numeric; kind := 'numeric';"


def run(room, command, **options):
    user = pwd.getpwnam("postgres") if os.geteuid() == 0 else None
    return subprocess.run(command, cwd=room, check=True, stdout=subprocess.PIPE, text=True,
                          user=user and user.pw_uid, group=user and user.pw_gid,
                          stderr=subprocess.DEVNULL, **options).stdout


texts = sys.stdin.read().split("\n")[:-1]
asked = [it for it in texts if ONE.fullmatch(it) and "\\" not in it]
with tempfile.TemporaryDirectory() as room:
    if os.geteuid() == 0:
        os.chown(room, pwd.getpwnam("postgres").pw_uid, -1)
    server = ["-D", f"{room}/data"]
    run(room, [f"{HOME}/initdb", *server, "-A", "trust", "-U", "postgres"])
    run(room, [f"{HOME}/pg_ctl", *server, "-w", "-o", f"-k {room} -h '' -c fsync=off", "-l",
               f"{room}/log", "start"])
    try:
        client = ["psql", "-h", room, "-U", "postgres", "-q", "-A", "-t", "-v", "ON_ERROR_STOP=1"]
        given = "create table given (n serial, it text);\ncopy given (it) from stdin;\n"
        given += "".join(f"{it}\n" for it in asked) + "\\.\n"
        query = "select answer(it) from given order by n;\n"
        said = run(room, client, input=READ % (LITERAL if IS_LITERAL else CAST) + given + query)
    finally:
        run(room, [f"{HOME}/pg_ctl", *server, "-m", "immediate", "stop"])
found = dict(zip(asked, said.splitlines()))
for text in texts:
    print(found.get(text, "-"))
