# Taken in by benches that make a program over this repository's crates.

# The crates of these names, and those of the repository that they stand on.
below() {
    awk -v named="$*" '
        { sub(/#.*/, "") }
        split($0, parts, ":") == 2 { split(parts[1], words, " "); below[words[1]] = parts[2] }
        END {
            count = split(named, found, " ")
            for (i = 1; i <= count; i++) seen[found[i]] = 1
            for (i = 1; i <= count; i++) {
                print found[i]
                many = split(below[found[i]], names, " ")
                for (j = 1; j <= many; j++)
                    if (names[j] in below && !seen[names[j]]++) found[++count] = names[j]
            }
        }' "$top/crates.txt"
}
