"""The tools of each form: the program that has to be there, how the tool is made, how it is run,
and which texts it is asked."""

# The greatest length of all short texts, the most separators of a skeleton, and how many by chance.
FAST = (5, 9, 100_000)
SLOW = (4, 2, 20_000)
SLOWEST = (3, 1, 4_000)

JAVAC = " ".join(f"--add-exports jdk.compiler/com.sun.tools.javac.{it}=ALL-UNNAMED"
                 for it in ("parser", "util"))
JARS = "/usr/share/java"
CLOJURE = f".:{JARS}/clojure.jar:{JARS}/spec.alpha.jar:{JARS}/core.specs.alpha.jar"
KOTLIN = "'/usr/share/kotlin/kotlinc/lib/*'"
GOPATH = "GO111MODULE=off GOPATH=/usr/share/gocode"


def script(program, command, pace=FAST):
    """A tool that isn't compiled."""
    return program, "true", command, pace


PYTHON = script("python3", "python3 $TOOLS/python.py")
NODE = script("node", "NODE_PATH=/usr/share/nodejs node $TOOLS/javascript.js")
GO = ("go", "go build -o go $TOOLS/go.go", "./go", FAST)
JAVA = ("javac", f"javac {JAVAC} -d . $TOOLS/Java.java", f"java {JAVAC} Java", FAST)
RUST = ("rustc", "rustc --edition 2021 --crate-type proc-macro --crate-name lexer $TOOLS/rust.rs",
        "cat >texts; echo 'lexer::answer!();' >main.rs; rustc --edition 2021 --crate-type lib"
        " --emit metadata --extern lexer=liblexer.so main.rs 2>errors; cat answers", FAST)
GCC = script("g++", "python3 $TOOLS/cxx.py", SLOW)
LUA = script("lua5.4", "lua5.4 $TOOLS/lua.lua")
# each text takes longer than the one before
MONO = ("mcs", "mcs -warn:0 -r:Mono.CSharp.dll -out:Mono.exe $TOOLS/Mono.cs",
        "split -l 5000 --filter 'mono Mono.exe'", FAST)
OCTAVE = script("octave-cli", "octave-cli -q $TOOLS/octave.m", SLOW)
POSTGRES = script("psql", "python3 $TOOLS/postgres.py")
RUBY = script("ruby", "ruby $TOOLS/ruby.rb")
FORTRAN = script("gfortran", "python3 $TOOLS/fortran.py", SLOW)
LXML = script("/usr/bin/python3", "/usr/bin/python3 $TOOLS/xmlschema.py")

TOOLS_OF = {
    "RUST": [RUST],
    "C89": [GCC],
    "C99": [GCC],
    "CXX14": [GCC],
    "CXX17": [GCC],
    "JAVA": [JAVA],
    "KOTLIN": [("kotlinc", f"javac -cp {KOTLIN} -d . $TOOLS/Kotlin.java",
                f"python3 $TOOLS/kotlin.py {KOTLIN}", SLOWEST)],
    "SCALA": [("scalac", "scalac -d . $TOOLS/Scala.scala", "scala -nc -cp . Reader", SLOW)],
    "CSHARP": [MONO],
    "GO": [GO],
    "D": [script("ldc2", "python3 $TOOLS/d.py", SLOW)],
    "NIM": [script("nim", "cp $TOOLS/Nim.nim nim.nim; cat >texts; truncate -s -1 texts;"
                   " nim check --hints:off --warnings:off --maxLoopIterationsVM:1000000000"
                   " nim.nim")],
    "ADA": [script("gnatmake", "python3 $TOOLS/ada.py", SLOW)],
    "COBOL": [script("cobc", "python3 $TOOLS/cobol.py", SLOWEST)],
    "PYTHON": [PYTHON],
    "RUBY": [RUBY],
    "PERL": [script("perl", "perl $TOOLS/perl.pl")],
    "PHP": [script("php", "php $TOOLS/php.php")],
    "LUA": [LUA],
    "R": [script("Rscript", "Rscript $TOOLS/r.R")],
    "ERLANG": [script("escript", "cat >texts; escript $TOOLS/erlang.escript")],
    "ELIXIR": [script("elixir", "elixir $TOOLS/elixir.exs")],
    "HASKELL": [("ghc", "ghc -v0 -package ghc -outputdir . $TOOLS/Haskell.hs -o tool", "./tool",
                 FAST)],
    "OCAML": [("ocamlc", "cp $TOOLS/ocaml.ml . && ocamlc -I +compiler-libs ocamlcommon.cma ocaml.ml"
               " -o tool", "./tool", FAST)],
    "FORTRAN": [FORTRAN],
    "OCTAVE": [OCTAVE],
    "SCHEME": [script("guile", "guile --no-auto-compile $TOOLS/guile.scm")],
    "JAVASCRIPT": [NODE],
    "COFFEESCRIPT": [script("coffee", "NODE_PATH=/usr/share/nodejs node $TOOLS/coffee.js")],
    "POSTGRESQL": [POSTGRES],
    "SQLITE": [script("python3", "python3 $TOOLS/sqlite.py")],
    "MYSQL": [script("mariadbd", "python3 $TOOLS/mariadb.py")],
    "HCL": [("go", f"{GOPATH} go build -o hcl $TOOLS/hcl.go", "./hcl", FAST)],
    "JSON": [PYTHON, NODE],
    "JSON_FLOATS": [NODE],
    "JSON5": [NODE],
    "YAML": [script("perl", "perl $TOOLS/yaml.pl")],
    "TOML": [PYTHON],
    "CSS": [script("node", "NODE_PATH=/usr/share/nodejs node $TOOLS/css.js")],
    "DECIMAL": [LXML],
    "XML_DOUBLE": [LXML],
    "PROMETHEUS": [GO],
    "PROTOBUF_TEXT": [("g++", "g++ -O1 -o protobuf $TOOLS/protobuf.cc -lprotobuf", "./protobuf",
                       FAST)],
    "EDN": [("clojure", f"javac -cp {CLOJURE} -d . $TOOLS/Edn.java", f"java -cp {CLOJURE} Edn",
             FAST)],
    "STRTOD": [PYTHON],
    "FROM_CHARS": [("g++", "g++ -O1 -std=c++17 -o from $TOOLS/from_chars.cc", "./from", FAST)],
    "RUST_PARSE": [RUST],
    "PYTHON_FLOAT": [PYTHON],
    "JAVA_PARSE_DOUBLE": [JAVA],
    "GO_PARSE_FLOAT": [GO],
    "CSHARP_PARSE": [MONO],
    "RUBY_FLOAT": [RUBY],
    "LUA_TONUMBER": [LUA],
    "JAVASCRIPT_NUMBER": [NODE],
    "JAVASCRIPT_PARSE_FLOAT": [NODE],
    "POSTGRESQL_NUMERIC": [POSTGRES],
    "STR2DOUBLE": [OCTAVE],
    "FORTRAN_READ": [FORTRAN],
}
