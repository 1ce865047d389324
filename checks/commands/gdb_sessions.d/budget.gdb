# examples/broken.toml hang
continue
print/d $steps
x/3i $pc
reverse-stepi
stepi
stepi
rwatch *(unsigned *) 0x80080004
reverse-continue
print/d $steps
reverse-continue
print/d $steps
delete
reverse-continue
