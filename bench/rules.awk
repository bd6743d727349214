# Writes a configuration of COUNT document types, each of which has 64 statements.
BEGIN {
    print "[register.goods]\nkind = \"balance\"\ndimensions = [\"item:code\"]\nresources = [\"quantity:3\", \"amount:2\"]"
    for (i = 0; i < COUNT; i++) {
        printf "[document.k%d]\nhead = [\"place:code\"]\nlines = [\"item:code\", \"quantity:3\"]\nrules = '''\n", i
        for (j = 0; j < 64; j++)
            print "each line receipt goods(item = line.item; quantity = line.quantity + 1.5) when head.place = \"w1\";"
        print "'''"
    }
}
