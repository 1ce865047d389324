# examples/fleet.toml upper
break main
continue
stepi
nexti
info registers
reverse-stepi
reverse-nexti
x/4i $pc
x/8xw 0x80080000
print/d $steps
set $steps = 40
print/d $steps
set $printed = 3
set $taken = 4
set $steps = 99999
print/d $taken
reverse-stepi
delete
continue
reverse-continue
continue
