# A module of the compiler's, as text, for a processor whose addresses have 32 bits. In the module a length has 64 bits, as on the machine
# that it was made for; a caller in C has a size_t of 32. So each entry is kept under another name, and one under its own takes each length
# with 32 bits and hands it on with 64. A length is the number of 64 bits that follows an address. What the module says about the other
# machine is left out. All that is in memory keeps the places that it has on that machine, counted in bytes, and an address takes four of its
# eight bytes. That is so as long as the module counts in bytes, makes no number of an address, copies runs of fixed sizes, and uses the room
# of an address for an address only; a module that doesn't is refused. But for one function of the toolchain's library, which copies a run of
# any size: it takes the distance of two addresses to tell whether the runs overlap, and that is the same with 32 bits and zeros before them.
function refuse(why) {
    printf "narrow: %s: %s\n", why, $0 >"/dev/stderr"
    refused = 1
    exit 1
}
/^target / || /^source_filename/ { next }
/^attributes / { gsub(/ "target-cpu"="[^"]*"| "probe-stack"="[^"]*"/, "") }
/^define / { split("", rooms); copies = /^define internal void @"?core\.+ptr\.+copy_drop\.+copy_bits/ }
/ = alloca ptr/ { rooms[$1] = 1 }
/ (ptrtoaddr|ptrtoint|inttoptr|addrspacecast) / && !(copies && / = ptrtoaddr ptr /) { refuse("an address as a number") }
copies { sub(/ = ptrtoaddr ptr /, " = ptrtoint ptr ") }
/ getelementptr / && !/ getelementptr (inbounds |nuw |nusw )*i8, / { refuse("places that are not counted in bytes") }
/ call [^@]*%[A-Za-z0-9._]+\(/ { refuse("a call by a pointer") }
/ call void @llvm\.mem/ && !/, i64 [0-9]+, i1 / && !copies { refuse("a run of no fixed size") }
/ ptr %/ {
    for (room in rooms) {
        if (!index($0, "ptr " room ",") && !index($0, "ptr " room ")")) continue
        if (!index($0, " load ptr, ptr " room ",") && !($0 ~ / store ptr / && index($0, ", ptr " room ","))) refuse("the room of an address")
    }
}
/^define / && !/^define internal / {
    open = index($0, "(")
    close_at = match($0, /\) #[0-9]+ \{$/)
    head = substr($0, 1, open - 1)
    name = substr(head, index(head, "@") + 1)
    returns = substr(head, 8, index(head, "@") - 9)
    parameters = substr($0, open + 1, close_at - open - 1)
    count = parameters == "" ? 0 : split(parameters, all, /, /)
    taken = ""
    handed = ""
    widened = ""
    for (at = 1; at <= count; at++) {
        split(all[at], words, " ")
        length_here = at > 1 && all[at] ~ /^i64 / && all[at - 1] ~ /^ptr /
        taken = taken (at > 1 ? ", " : "") (length_here ? "i32" : words[1]) " noundef %n" at
        handed = handed (at > 1 ? ", " : "") words[1] " noundef %" (length_here ? "w" : "n") at
        if (length_here) widened = widened "  %w" at " = zext i32 %n" at " to i64\n"
    }
    entries = entries "\ndefine " returns " @" name "(" taken ") nounwind {\n" widened
    entries = entries "  %r = tail call " returns " @wide." name "(" handed ")\n  ret " type_of(returns) " %r\n}\n"
    sub("@" name "\\(", "@wide." name "(")
    sub(/^define /, "define internal ")
}
{ print }
END { if (refused) exit 1; printf "%s", entries }
function type_of(text,   words, count) {
    count = split(text, words, " ")
    return words[count]
}
