# Writes COUNT `manual` lines of one record: 1,000 items, dates rising (ORDER=rising) or shuffled.
# With REFUSED=1 every other line is one that is refused, in turn for its JSON, an unknown member,
# its date, its clerk, a value and a sum.
BEGIN {
    x = 1
    for (i = 1; i <= COUNT; i++) {
        if (ORDER == "shuffled") { x = (x * 16807) % 2147483647; t = x % 31536000 } else { t = int(i * 31536000 / (COUNT + 1)) }
        day = int(t / 86400); s = t % 86400
        month = 1
        while (day >= days(month)) { day -= days(month); month++ }
        fault = REFUSED && i % 2 == 0 ? 1 + i / 2 % 6 : 0
        day_text = fault == 3 ? "32" : sprintf("%02d", day + 1)
        printf "{\"clerk\":\"%s\",\"date\":\"2025-%02d-%sT%02d:%02d:%02d\",\"no\":%d,\"op\":\"manual\",\"sets\":[{\"records\":[{\"kind\":\"receipt\",\"sums\":[\"%d.000\",\"%d.50%s\"],\"values\":[\"item%s%d\"]}],\"space\":\"goods\"}]%s\n", fault == 4 ? "zoe" : "anna", month, day_text, int(s / 3600), int(s / 60) % 60, s % 60, i, 1 + i % 9, 1 + i % 70, fault == 6 ? "5" : "", fault == 5 ? " " : "", (i * 7919) % 1000, fault == 1 ? "" : fault == 2 ? ",\"zz\":1}" : "}"
    }
}
function days(m) { return m == 2 ? 28 : (m == 4 || m == 6 || m == 9 || m == 11 ? 30 : 31) }
