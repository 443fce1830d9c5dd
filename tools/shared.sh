# What the shell tools have in common; each reads it first, and has its help in the comment at its head.
root=$(cd "$(dirname "${BASH_SOURCE[0]}")/.." && pwd)

# Prints the tool's help.
usage() { sed -n '2,/^[^#]/s/^# \?//p' "$root/tools/${0##*/}"; }

# Ends the tool where it was called in a wrong way.
misuse() { # MESSAGE
    echo "tools/${0##*/}: $1 (--help says more)" >&2
    exit 2
}

# Whether a file that is made from the proved code is missing, or older than the code, its definitions or its proofs.
stale() { # FILE
    [ ! -e "$1" ] || [ -n "$(find "$root"/crates.txt "$root"/crates/*/{src,specs,proofs} -newer "$1" -print -quit 2>/dev/null)" ]
}

# Makes a shared object of archives. With -Bsymbolic, calls within it go straight to the callee, as in a program that is
# linked with the archives.
shared_object() { # FILE ARCHIVE..
    "$root/tools/need" gcc gcc libc6-dev
    gcc -shared -Wl,-Bsymbolic -o "$1" -Wl,--whole-archive "${@:2}" -Wl,--no-whole-archive
}

# The folder of the Rattle toolchain, in which `rt` stands in bin/.
kit() {
    local rt
    rt=$(command -v rt) || misuse "the Rattle toolchain, rt, is not on the path: see README.md"
    dirname "$(dirname "$(readlink -f "$rt")")"
}

# Makes links in a folder to all that another one holds, but for what is there already.
links_to() { # FOLDER OTHER
    local file
    mkdir -p "$1"
    for file in "$2"/*; do [ -e "$1/${file##*/}" ] || ln -s "$file" "$1/"; done
}

# The compilers of the toolchain again, in a folder of links in which clang keeps each module that it is given, as MODULE.1.bc,
# MODULE.2.bc and so on. It is run with no environment, so the paths are written into it.
keeping_compilers() { # FOLDER MODULE
    local from
    from=$(kit)/toolchain
    mkdir -p "$1/bin"
    cat >"$1/bin/clang" <<WRAPPER
#!/bin/bash
n=1
while [ -e "$2.\$n.bc" ]; do n=\$((n + 1)); done
for word; do case \$word in *.bc) /bin/cp "\$word" "$2.\$n.bc" ;; esac; done
exec "$from/bin/clang" "\$@"
WRAPPER
    chmod +x "$1/bin/clang"
    links_to "$1/bin" "$from/bin"
    links_to "$1" "$from"
}

# The largest module that was kept: beside it the toolchain may try its compiler on a small one.
largest_kept() { # MODULE
    ls -S "$1".*.bc 2>/dev/null | head -n 1
}

# A module as text.
text_of() { # MODULE FILE
    "$(kit)/toolchain/bin/clang" -x ir "$1" -S -emit-llvm -O0 -Xclang -disable-llvm-passes -Wno-override-module -o "$2"
}

# The archive for this machine, from a module that the toolchain made for x86-64. Needs $work, a folder.
for_this_machine() { # MODULE ARCHIVE
    local bin
    bin=$(kit)/toolchain/bin
    text_of "$1" "$work/module.ll"
    sed -i 's/"target-cpu"="x86-64[^"]*"//' "$work/module.ll"
    "$bin/clang" -Wno-override-module --target="$(uname -m)-unknown-linux-gnu" -fPIC -O3 -c -x ir "$work/module.ll" -o "$work/module.o"
    rm -f "$2"
    "$bin/llvm-ar" rcs "$2" "$work/module.o"
}
