# examples/broken.toml stack
break depth
ignore 1 3
continue
backtrace 3
print/x $sp
finish
reverse-finish
delete
continue
print/x $sp
