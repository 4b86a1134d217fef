# A module of the compiler's, as text, for a processor whose addresses have 32 bits. What is in memory keeps the places that it has where
# addresses have 64, so an address that may be missing is not loaded as one value, whose parts would lie closer together: each part is loaded
# from its place, the address behind eight bytes. A module that has another such value in memory is refused, but for an address with a length
# of 64 bits, whose places are the same.
/ = load \{ i8, ptr \}, ptr / {
    room = $9
    sub(/,$/, "", room)
    printf "  %s.there = load i8, ptr %s, align 8\n  %s.place = getelementptr i8, ptr %s, i64 8\n", $1, room, $1, room
    printf "  %s.address = load ptr, ptr %s.place, align 8\n", $1, $1
    printf "  %s.half = insertvalue { i8, ptr } poison, i8 %s.there, 0\n", $1, $1
    printf "  %s = insertvalue { i8, ptr } %s.half, ptr %s.address, 1\n", $1, $1, $1
    next
}
/ (store|load) \{[^}]*ptr/ && !/ \{ ptr, i64 \}/ {
    printf "loads: a value of several in memory: %s\n", $0 >"/dev/stderr"
    exit 1
}
{ print }
