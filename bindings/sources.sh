# The state of the sources, by times of change and by contents, for scripts that note of what they built something.
#
# A script that reads this has set `root`, the repository's folder, and `parts`, the files and folders there that count. What is built in
# them does not. The tools start with an empty environment.

find_in_sources() { # EXPRESSION...
    (cd "$root/" && exec -c find -L "${parts[@]}" \
        \( -path cli/target -o -path bindings/rust/target -o -regex 'crates/[^/]*/out' \) -prune -o "$@")
}

# The time of the last change, which cannot be set, the size, the number and the name of every source.
list_sources() {
    find_in_sources ! -type d -printf '%C@ %s %i %p\n'
}

digest_sources() {
    find_in_sources -type f -print0 | (exec -c sort -z) | (cd "$root/" && exec -c xargs -0 sha256sum --) | (exec -c sha256sum)
}

# Waits until a write gives another time of change than those of a list: they count in steps of some milliseconds, on some file
# systems in whole seconds.
wait_for_step() { # LIST
    case $1 in
    *.0000000000\ *) sleep 1.1 ;;
    *) sleep 0.02 ;;
    esac
}
