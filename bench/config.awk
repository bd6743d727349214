# Writes a configuration that is as large as it may be: 1 MiB, 32 registers, 8 ledgers of 512
# accounts each of which is the parent of the next, 64 document types, 16 sequences, 64 clerks.
function put(line) { print line; size += length(line) + 1 }
function names(front, back, count,    text, i) {
    for (i = 0; i < count; i++) text = text (i ? ", " : "") "\"" front i back "\""
    return "[" text "]"
}
function blanks(count,    text) {
    for (text = " "; length(text) < count; ) text = text text
    return substr(text, 1, count)
}
BEGIN {
    for (i = 0; i < 32; i++) {
        put("[register.r" i "]"); put("kind = \"balance\"")
        put("dimensions = " names("d", ":code", 8)); put("resources = " names("n", ":3", 8))
    }
    for (i = 0; i < 8; i++) {
        put("[ledger.l" i "]"); put("scale = 2"); put("accounts = [")
        # the last account stands first, so that the file is in no order of codes
        for (j = 511; j >= 0; j--) {
            parent = j ? sprintf(", parent = \"%04d\"", j - 1) : ""
            put(sprintf("  { code = \"%04d\", name = \"Account %04d\", kind = \"both\"%s, extras = [\"item\", \"place\"] },", j, j, parent))
        }
        put("]")
    }
    for (i = 0; i < 16; i++) {
        put("[sequence.s" i "]"); put("documents = " names("k", "", 64))
        put("registers = " names("r", "", 32)); put("dimensions = " names("d", "", 8))
    }
    for (i = 0; i < 64; i++) {
        put("[clerk.c" i "]")
        put("rights = [\"write\", \"post\", \"manual\", \"read\", \"lock\", \"admin\"]")
    }
    for (i = 0; i < 64; i++) {
        put("[document.k" i "]"); put("head = " names("d", ":code", 16))
        put("lines = " names("n", ":3", 16))
        # the rules of the types share what is left, but for some room for the types to come
        put("rules = \"" blanks(int((1048576 - size) / (64 - i)) - 400) "\"")
    }
    # a comment takes the rest
    printf "#%s", blanks(1048576 - size - 1)
}
