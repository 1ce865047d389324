# shellcheck shell=bash
# A bare Debian tree, which has neither the toolchain nor a compiler, for a script to source that has `suite`, `work` and `fail`.

# Makes the tree in a folder. TREE=FOLDER keeps what debootstrap made there, for the next call.
#   bare_tree FOLDER
bare_tree() {
    local kept=${TREE:-$work/bare} mirror
    # The mirror that this machine's own packages come from; one of the files may be wanting.
    mirror=$({ sed -n 's/^URIs: *\([^ ]*\).*/\1/p; s/^deb \(\[[^]]*\] \)\{0,1\}\([^ ]*\) .*/\2/p' \
        /etc/apt/sources.list /etc/apt/sources.list.d/* 2>/dev/null || true; } | head -n 1)
    # shellcheck disable=SC2154 # the script that sources this one has the suite
    [ -d "$kept/usr/bin" ] || debootstrap --variant=minbase "$suite" "$kept" "$mirror" >"$work/log" 2>&1 ||
        fail "debootstrap $suite of $mirror failed: $(tail -n 3 "$work/log")"
    cp -a "$kept" "$1"
}
