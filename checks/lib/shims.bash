# shellcheck shell=bash
# The libraries that checks preload into the programs, of which each has one source, checks/lib/NAME.c. For a script at the top of the
# repository to source, behind launch.bash.

# Compiles the source of a shim.
#   compile_shim NAME FILE
compile_shim() {
    "${CC:-cc}" -O2 -Wall -shared -fPIC -s -o "$2" "checks/lib/$1.c"
}

# Compiles a shim, or takes the one in programs/ where there is no C compiler: that one has to be of this source.
#   take_shim NAME FILE
take_shim() {
    if command -v "${CC:-cc}" >/dev/null; then
        compile_shim "$1" "$2"
    else
        grep -qsx "shim $1 $(digest "checks/lib/$1.c") $(digest "programs/$1.so")" programs/BUILT && cp "programs/$1.so" "$2"
    fi
}
