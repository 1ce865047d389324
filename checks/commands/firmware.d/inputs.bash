# shellcheck shell=bash disable=SC2154,SC2317 # checks/commands/firmware.sh gives kit and top; stale calls each `change`
# Further inputs of a build: directories and libraries that only the linker or the assembler is told of, programs that options name,
# variables that specs read, and dates. Each is stale in the way of rebuilds.bash.

# A test that exits with what the library `code` says, found in second/ until there is one in first/, which is searched before it.
hides_library() {
    put t/a.c <<<'int code(void);
int main(void) { return code(); }'
    rm -rf first second
    mkdir first second
    library 0
    mv libcode.a second/
    change() { library 1 && mv libcode.a first/; }
}

case_stale_folders_of_the_linker() {
    local options
    for options in '-Wl,-L,first -Wl,-L,second -lcode' '-Wl,--library-path=first,--library-path=second,--library=code' \
        '-Xlinker -L -Xlinker first -Xlinker -Lsecond -Xlinker -l -Xlinker code'; do
        hides_library
        echo "$options" >t/a.flags
        stale "a library by $options"
    done
    echo '-Lfirst -Lsecond -lcode' >options
    hides_library
    echo '-Wl,@options' >t/a.flags
    stale "a library by a response file of the linker's"
    hides_library
    rm t/a.flags
    stale 'a library by a response file of LINK' LINK='-T default.ld @options'
    library 1
    mv libcode.a libother.a
    library 0
    echo 'INPUT(-lcode)' >code.ld
    echo '-L. code.ld' >t/a.flags
    change() { echo 'INPUT(libother.a)' >libcode.so; }
    stale 'a shared library in the place of one that a script names'
}

# Two versions of an SDK, and a link to one of them, by which the system's headers are found. What is included by name differs alone.
case_stale_switched_links() {
    local version
    for version in 1.2 1.3; do put "sdk/$version/include/hal/gpio.h" <<<'#include "regs.h"'; done
    put sdk/1.2/include/hal/regs.h <<<'#define CODE 0'
    put sdk/1.3/include/hal/regs.h <<<'#define CODE 1'
    exits_by_header hal/gpio.h
    ln -s 1.2 sdk/current
    change() { ln -sfn 1.3 sdk/current; }
    echo "-isystem $PWD/sdk/current/include" >t/a.flags
    stale 'a link above a directory of -isystem'
    mkdir board
    ln -s ../sdk/1.2/include/hal board/hal
    change() { ln -sfn ../sdk/1.3/include/hal board/hal; }
    echo "-isystem $PWD/board" >t/a.flags
    stale 'a link in a directory of -isystem'
    ln -sfn ../sdk/1.2/include/hal board/hal
    export C_INCLUDE_PATH=$PWD/board
    rm t/a.flags
    stale 'a link in a directory of C_INCLUDE_PATH'
    unset C_INCLUDE_PATH
    put once/code.h <<<'#pragma once
enum { CODE };'
    ln -s once twice
    put t/a.c <<<'#include <once/code.h>
#include <twice/code.h>
int main(void) { return CODE; }'
    echo "-isystem $PWD" >t/a.flags
    check '#pragma once by two paths' 0 '1 job: 1 passed, 0 failed'
}

# A header whose name macros put together, found below a folder that is spelt in one way or another.
case_stale_shadows_of_computed_names() {
    local folder
    put t/a.c <<<'#define TEXT_(it) #it
#define TEXT(it) TEXT_(it)
#include TEXT(boards/BOARD.h)
int main(void) { return CODE; }'
    put base/boards/esp.h <<<'#define CODE 0'
    put boards/esp.h <<<'#define CODE 0'
    change() { put override/boards/esp.h <<<'#define CODE 1'; }
    for folder in . ./ ./base .//base/ ././base base/. base// "$PWD" "$PWD/./base" base/../base; do
        rm -rf override
        mkdir -p override/boards
        echo "-I./override -I$folder -DBOARD=esp" >t/a.flags
        stale "a header shadows one that -I$folder has"
    done
}

# A compiler that reads files which are not here, as one in a container does: what went into the output is not known, so it is made again.
# Files here that the compiler calls by another name are no such files: those that an assembler's input names, and temporary ones.
case_stale_files_elsewhere() {
    mkdir -p image/include image/lib
    put image/include/code.h <<<'#define CODE 0'
    # The words name opt/, which is image/ to the compiler alone, as are the files that it lists.
    put docked <<END
#!/bin/sh
for word; do
    shift
    set -- "\$@" "\$(printf %s "\$word" | sed 's|$PWD/opt|$PWD/image|g')"
done
said=\$(riscv64-unknown-elf-gcc "\$@" 2>&1)
status=\$?
[ -z "\$said" ] || echo "\$said" | sed 's|$PWD/image|$PWD/opt|g'
for word; do
    word=\${word#-Wa,--MD,}
    word=\${word#-Wl,--dependency-file=}
    case \$word in *.headers | *.assembled | *.linked) [ ! -e "\$word" ] || sed -i 's|$PWD/image|$PWD/opt|g' "\$word" ;; esac
done
exit \$status
END
    chmod +x docked
    elsewhere() {
        local what=$1
        check "$what: as it was" 0 '1 job: 1 passed, 0 failed' CC="$PWD/docked"
        check "$what: nothing changed here" 0 '1 job: 1 passed, 0 failed' CC="$PWD/docked"
        change
        check "$what: changed" 2 '1 job: 0 passed, 1 failed' CC="$PWD/docked"
    }
    exits_by_header code.h
    echo "-isystem $PWD/opt/include" >t/a.flags
    change() { put image/include/code.h <<<'#define CODE 1'; }
    elsewhere 'a header'
    put t/a.c <<'END'
__asm__(".balign 4\n.globl code\ncode: .incbin \"code.bin\"");
extern unsigned code;
int main(void) { return code; }
END
    printf '\0\0\0\0' >image/lib/code.bin
    echo "-Wa,-I$PWD/opt/lib" >t/a.flags
    change() { printf '\1\0\0\0' >image/lib/code.bin; }
    elsewhere 'a file of the assembler'
    put t/a.c <<<'int code(void);
int main(void) { return code(); }'
    library 0
    mv libcode.a image/lib/
    echo "-L$PWD/opt/lib -lcode" >t/a.flags
    change() { library 1 && mv libcode.a image/lib/; }
    elsewhere 'a library'
}

# Names that the assembler lists, and that are none of files which it reads.
case_names_of_lines() {
    local option
    put t/a.S <<<'    .file "made/of/this.c"
    .globl main
main: li a0, 0
    ret'
    put t/b.c <<<'int b(void);
int main(void) { return b(); }'
    put code/b.i <<<'# 1 "elsewhere/b.c"
int b(void) { return 0; }'
    echo code/b.i >t/b.flags
    for option in -Os '-Os -pipe' '-Os -g -flto'; do
        check "with $option" 0 '2 jobs: 2 passed, 0 failed' CFLAGS="$option"
        check 'and nothing changed' 0 '2 jobs: 2 passed, 0 failed' CFLAGS="$option"
        hides 'CC '
        hides 'LD '
    done
}

# Files that options name, but that are written and not read.
case_listings() {
    local option
    exits t/a.c 0
    exits t/b.c 0
    for option in -Wa,-adhlns=a.lst -Wa,-L,-al=a.lst '-Xassembler -ahls=a.lst' -Wa,@options -fdump-tree-optimized=a.lst; do
        rm -f a.lst
        echo '-alh=a.lst' >options
        echo "$option" >t/a.flags
        check "with $option" 0 '2 jobs: 2 passed, 0 failed'
        [ -s a.lst ] || fail 'there is no listing'
        check 'and nothing changed' 0 '2 jobs: 2 passed, 0 failed'
        hides 'CC '
        hides 'LD '
    done
    rm t/a.flags
    check 'one listing for all' 0 '2 jobs: 2 passed, 0 failed' CFLAGS='-Os -Wa,-al=a.lst'
    check 'and nothing changed' 0 '2 jobs: 2 passed, 0 failed' CFLAGS='-Os -Wa,-al=a.lst'
    hides 'CC '
    printf '*asm:\n+ -al=a.lst\n\n' >board.specs
    check 'a listing by specs' 0 '2 jobs: 2 passed, 0 failed' CFLAGS='-Os -specs=board.specs'
    check 'and nothing changed' 0 '2 jobs: 2 passed, 0 failed' CFLAGS='-Os -specs=board.specs'
    hides 'CC '
}

# Images of an SDK, mounted in turn, with files of the same inodes, sizes and dates.
case_stale_mounted_images() {
    local code
    mkdir mounted
    for code in 0 1; do
        put "$code/code.h" <<<"#define CODE $code"
        truncate -s 4M "$code.img"
        if ! mke2fs -q -t ext4 -O ^has_journal -d "$code" "$code.img"; then
            echo 'images: passed over, since they cannot be made'
            return
        fi
        for date in atime ctime mtime crtime; do
            debugfs -w -R "sif /code.h $date 20200101000000" "$code.img" 2>/dev/null
            debugfs -w -R "sif /code.h ${date}_extra 0" "$code.img" 2>/dev/null
        done
    done
    if ! mount -o loop,ro 0.img mounted; then
        echo 'images: passed over, since they cannot be mounted'
        return
    fi
    mounted=$PWD/mounted
    trap 'umount "$mounted"' EXIT
    exits_by_header code.h
    echo '-isystem mounted' >t/a.flags
    change() { umount mounted && mount -o loop,ro 1.img mounted; }
    stale 'a header of another image'
}

# Paths are bytes, which a locale of Latin-1 does not decode as UTF-8.
case_stale_names_in_latin_1() {
    mkdir loc
    if ! localedef -i de_DE -f ISO-8859-1 loc/de_DE.ISO-8859-1; then
        echo 'a locale of Latin-1: passed over, since it cannot be made'
        return
    fi
    export LOCPATH=$PWD/loc LC_ALL=de_DE.ISO-8859-1 2>/dev/null
    put geräte/uart.h <<<'#define CODE 0'
    put t/a.c <<<'#include "../geräte/uart.h"
int main(void) { return CODE; }'
    change() { put geräte/uart.h <<<'#define CODE 1'; }
    stale 'a header by a name with an umlaut'
    put geräte/uart.inc <<<'    .globl main
main: li a0, 0
    ret'
    rm t/a.c
    put t/a.S <<<'    .include "geräte/uart.inc"'
    change() { sed -i 's/a0, 0/a0, 1/' geräte/uart.inc; }
    stale 'a file of the assembler by a name with an umlaut'
    unset LOCPATH LC_ALL
}

# A test that includes a file of the folder second, and the change that puts another one into the folder first.
include_from_second() {
    put t/a.S <<<'    .include "code.inc"'
    mkdir first
    put second/code.inc <<<'    .globl main
main: li a0, 0
    ret'
    change() { sed 's/a0, 0/a0, 1/' second/code.inc >first/code.inc; }
}

case_stale_folders_of_the_assembler() {
    include_from_second
    echo '-Ifirst -Isecond' >options
    echo '-Wa,@options' >t/a.flags
    stale "a file by a response file of the assembler's"
    rm first/code.inc t/a.flags
    echo '-Wa,-Ifirst,-Isecond' >options
    stale 'a file by a response file of CFLAGS' CFLAGS='-Os @options'
}

# Programs and a plugin that options name, but by no path.
case_stale_named_programs() {
    exits t/a.c CODE
    mkdir bin
    wrapper() {
        put bin/wrapper <<<"#!/bin/sh
program=\$1
shift
case \$program in *cc1) exec \"\$program\" -DCODE=$1 \"\$@\" ;; esac
exec \"\$program\" \"\$@\""
        chmod +x bin/wrapper
    }
    wrapper 0
    echo '-wrapper wrapper' >t/a.flags
    change() { wrapper 1; }
    PATH=$PWD/bin:$PATH stale 'a -wrapper of PATH'
    exits t/a.c 0
    linker() {
        put bin/ld.lld <<<"#!/bin/sh
$1
exec $(command -v riscv64-unknown-elf-ld) \"\$@\""
        chmod +x bin/ld.lld
    }
    linker :
    echo '-fuse-ld=lld -Bbin/' >t/a.flags
    change() { linker 'exit 1'; }
    stale 'a linker of -fuse-ld'
    mkdir programs
    rm t/a.flags
    change() {
        printf '#!/bin/sh\nexit 1\n' >programs/cc1
        chmod +x programs/cc1
    }
    stale 'a compiler proper appears under -B, whose value is the next word' CFLAGS='-Os -B programs/'
    plugin() {
        gcc -shared -fPIC -x c - -o programs/plugin.so <<<"int plugin_is_GPL_compatible;
int plugin_init(void *it, void *version) { (void)it; (void)version; return $1; }"
    }
    if ! command -v gcc >/dev/null; then
        echo 'a plugin: passed over, since gcc is not installed'
        return
    fi
    plugin 0
    change() { plugin 1; }
    stale 'a plugin that has a name and no path' CFLAGS='-Os -iplugindir=programs -fplugin=plugin'
}

case_stale_variable_of_specs() {
    exits_by_header code.h
    put first/code.h <<<'#define CODE 1'
    put second/code.h <<<'#define CODE 0'
    put board.specs <<<'*cpp:
+ -I%:getenv(BOARD /.)'
    echo '-specs=board.specs' >t/a.flags
    export BOARD=second
    change() { export BOARD=first; }
    stale 'a variable that specs read'
    unset BOARD
}

# Words of CC are words like those of CFLAGS, and so are those that specs add.
case_stale_words_of_cc() {
    local compiler=riscv64-unknown-elf-gcc
    put t/a.c <<<'extern char code[];
int main(void) { return (int)code; }'
    echo '--defsym=code=0' >symbols
    change() { echo '--defsym=code=1' >symbols; }
    stale "a response file of the linker's in CC" CC="$compiler -Wl,@symbols"
    echo '--defsym=code=0' >symbols
    printf '*link:\n+ @symbols\n\n' >board.specs
    stale "a response file of the linker's in specs of CC" CC="$compiler -specs=board.specs"
    check 'a map by CC' 0 '1 job: 1 passed, 0 failed' CC="$compiler -Wl,-Map=a.map -Wl,--defsym=code=0"
    check 'and nothing changed' 0 '1 job: 1 passed, 0 failed' CC="$compiler -Wl,-Map=a.map -Wl,--defsym=code=0"
    hides 'LD '
    rm t/a.c
    include_from_second
    stale 'a file of the assembler by CC' CC="$compiler -Wa,-Ifirst,-Isecond"
    rm first/code.inc
    printf '*asm:\n+ -Ifirst -Isecond\n\n' >board.specs
    stale 'a file of the assembler by specs' CFLAGS='-Os -specs=board.specs'
    rm t/a.S
    put t/a.c <<<'int main(void) { return STAMP[0] != 87; }'
    touch -d 2020-01-01 t/a.c
    change() { touch -d 2020-01-02 t/a.c; }
    stale '__TIMESTAMP__ in CC' CC="$compiler -DSTAMP=__TIMESTAMP__"
    touch -d 2020-01-01 t/a.c
    printf '*cpp:\n+ -DSTAMP=__TIMESTAMP__\n\n' >board.specs
    stale '__TIMESTAMP__ in specs' CFLAGS='-Os -specs=board.specs'
}

# With -flto, the assembler of the link is what reads the file, wherever the option comes from.
case_stale_file_of_flto() {
    put t/a.c <<<'#define READ(name) __asm__(".balign 4\n.globl code\ncode: .incbin \"inc/" name ".bin\"");
READ("code")
extern unsigned code;
int main(void) { return code; }'
    mkdir inc
    printf '\0\0\0\0' >inc/code.bin
    echo -flto >t/a.flags
    change() { printf '\1\0\0\0' >inc/code.bin; }
    stale '.incbin with -flto'
    rm t/a.flags
    printf '\0\0\0\0' >inc/code.bin
    stale '.incbin with -flto of CC' CC='riscv64-unknown-elf-gcc -flto'
    printf '\0\0\0\0' >inc/code.bin
    printf '*cc1:\n+ -flto\n\n' >lto.specs
    stale '.incbin with -flto of specs' CFLAGS='-Os -specs=lto.specs'
    printf '*cc1_options:\n+ -flto -fno-fat-lto-objects\n\n' >lto.specs
    check 'specs that leave the code to the linker' 2 't/a.c: error: the compiler wrote an object without code' CFLAGS='-Os -specs=lto.specs'
}

# What the linker takes for a script, whatever its name ends in, and where the names in it are searched.
case_stale_names_in_scripts() {
    local name
    put t/a.c <<<'int code(void);
int main(void) { return code(); }'
    mkdir -p lib first/sub second/sub
    library 1
    mv libcode.a libother.a
    cp code.o other.o
    library 0
    echo 'INPUT(-lcode)' >libboard.a
    echo '-L. -lboard' >t/a.flags
    change() { echo 'INPUT(libother.a)' >libcode.so; }
    stale 'a library of a script that is named like an archive'
    rm libboard.a libcode.so
    for name in libboard.a libboard.so board.o; do
        echo 'GROUP ( /* the board */ AS_NEEDED ( sub/code.o ) )' >"lib/$name"
        cp code.o second/sub/
        echo "-Lfirst -Lsecond lib/$name" >t/a.flags
        change() { cp other.o first/sub/code.o; }
        stale "an object in a folder by $name"
        rm first/sub/code.o second/sub/code.o "lib/$name"
    done
    echo 'INPUT("code.o")' >lib/libboard.a
    echo '-Llib -lboard' >t/a.flags
    change() { cp other.o lib/code.o; }
    stale "an object in the script's own folder"
}

# GCC tries each file of a directory a.h.gch.
case_stale_precompiled_headers() {
    precompiled() {
        put other.h <<<"#define CODE $1"
        riscv64-unknown-elf-gcc -march=rv32imc -mabi=ilp32 -Os -g --specs=picolibc.specs -x c-header other.h -o "$2"
    }
    put t/a.c <<<'#include "a.h"
int main(void) { return CODE; }'
    put t/a.h <<<'#define CODE 0'
    mkdir t/a.h.gch
    change() { precompiled 1 t/a.h.gch/c; }
    stale 'a precompiled header appears in a directory'
    precompiled 0 t/a.h.gch/c
    stale 'a precompiled header in a directory changes'
    rm -r t/a.h.gch
    precompiled 0 t/a.h.gch
    change() { precompiled 1 t/a.h.gch; }
    stale 'a precompiled header changes'
    rm t/a.h.gch
    put t/a.c <<<'int main(void) { return CODE; }'
    mkdir folder
    echo '-Ifolder -include code.h' >t/a.flags
    precompiled 0 folder/code.h.gch
    change() { precompiled 1 folder/code.h.gch; }
    stale 'a precompiled header of -include changes'
    put t/a.c <<<'#define NAME "b.h"
#include NAME
int main(void) { return CODE; }'
    echo '-Ifolder' >t/a.flags
    precompiled 0 folder/b.h.gch
    change() { precompiled 1 folder/b.h.gch; }
    stale 'a precompiled header whose name is a macro'
}

case_stale_dates() {
    put t/a.c <<<'int main(void) { return STAMP[0] != 87; }'
    echo -DSTAMP=__TIMESTAMP__ >t/a.flags
    touch -d 2020-01-01 t/a.c
    change() { touch -d 2020-01-02 t/a.c; }
    stale '__TIMESTAMP__ in an option'
    put t/a.c <<<'#pragma GCC dependency "table.txt"
int main(void) { return 0; }'
    put t/table.txt </dev/null
    touch -d 2020-01-01 t/table.txt
    echo -Werror >t/a.flags
    check 'a file that the source depends on' 0 '1 job: 1 passed, 0 failed'
    touch -d '1 hour' t/table.txt
    check 'and that is newer' 2 'current file is older than table.txt'
}

# A compiler that begins on one day and ends on the next one, as a clock says that is this case's own.
case_stale_midnight() {
    put clock/sitecustomize.py <<END
import time
real = time.strftime
time.strftime = lambda form, *given: open("$PWD/day").read().strip() if form == "%F" else real(form, *given)
END
    put compiler <<'END'
#!/bin/sh
# Seconds of 1970-01-01 and -02.
case $(cat day) in 1970-01-01) export SOURCE_DATE_EPOCH=0 ;; *) export SOURCE_DATE_EPOCH=90000 ;; esac
case " $* " in *' -c t/a.c '*) [ ! -e evening ] || { rm evening; echo 1970-01-02 >day; } ;; esac
exec riscv64-unknown-elf-gcc "$@"
END
    chmod +x compiler
    put t/a.c <<<'int main(void) { return __DATE__[5] != 49; }'
    echo 1970-01-01 >day
    export PYTHONPATH=$PWD/clock
    check 'on the first day' 0 '1 job: 1 passed, 0 failed' CC="$PWD/compiler"
    check 'and still' 0 '1 job: 1 passed, 0 failed' CC="$PWD/compiler"
    hides 'CC '
    echo '#define MORE' >>t/a.c
    : >evening
    made check TESTS=t CC="$PWD/compiler" >out 2>&1 || true
    [ "$(<day)" = 1970-01-02 ] || fail "midnight has not come: $(<out)"
    check 'on the second day' 2 'FAIL a: exit 1' CC="$PWD/compiler"
    unset PYTHONPATH
}

# Files that __has_include asks for by macros, where a search does not look at first.
case_stale_hidden_folders() {
    local folder
    mkdir -p a/b t
    echo -Ia/b >t/a.flags
    for folder in build .hidden; do
        put t/a.c <<<"#define TEXT(it) #it
#define NAME(it) TEXT($folder/it.h)
#if __has_include(NAME(more))
#include NAME(more)
#else
#define CODE 0
#endif
int main(void) { return CODE; }"
        change() { put "a/b/$folder/more.h" <<<'#define CODE 1'; }
        stale "a file in $folder"
    done
    sed -i "s|$folder/|../|" t/a.c
    check 'a file above' 0 '1 job: 1 passed, 0 failed'
    put a/more.h <<<'#define CODE 1'
    check 'and it appears' 2 'FAIL a: exit 1'
}

# ccache knows nothing of what the assembler read: the kit keeps it from answering.
case_ccache() {
    mkdir bin
    put bin/ccache <<'END'
#!/bin/sh
case " $* " in *' -c '*) [ -n "$CCACHE_DISABLE" ] || { echo 'ccache answers' >&2; exit 1; } ;; esac
exec "$@"
END
    chmod +x bin/ccache
    exits t/a.c 0
    change() { exits t/a.c 1; }
    stale 'by ccache' CC='bin/ccache riscv64-unknown-elf-gcc'
}

# The C library refers to what the linker would drop.
case_flto() {
    mkdir t
    cp -r "$kit"/tests/{printf,malloc,shapes,uart}* t/
    check 'all with -flto' 0 ' passed, 0 failed' CFLAGS='-Os -g -flto'
}
