# examples/fleet.toml checksum
file examples/firmware/checksum.elf
break main
continue
info registers pc
load
monitor reset halt
continue
set var $a0 = 77
set var {int}0x80080000 = 5
set var $a0 = $a0
monitor when
monitor input
monitor console
monitor nothing
delete
continue
monitor console
kill
