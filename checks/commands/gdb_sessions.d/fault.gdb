# examples/broken.toml bad-pointer
continue
info registers pc
stepi
backtrace
reverse-stepi
break copy
reverse-continue
reverse-finish
continue
continue
info breakpoints
