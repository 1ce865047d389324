# examples/fleet.toml checksum
watch *(unsigned *) 0x80080004
continue
print/d $steps
reverse-continue
print/d $steps
continue
rwatch *(unsigned *) 0x80080004
awatch *(unsigned char *) 0x80080009
continue
print/d $steps
continue
print/d $steps
continue
print/d $steps
reverse-continue
print/d $steps
reverse-continue
print/d $steps
reverse-continue
print/d $steps
delete
continue
rwatch *(unsigned *) 0x80080004
reverse-continue
print/d $steps
stepi
reverse-stepi
detach
