# Writes each row of calls.def once for each name, without those that the C library does not have: to a file in the
# folder `groups`, which is named by the first word of the comment above the row. The first file lists the library's
# names, and with an `m` those of its mathematics. Rows of names that only the latter has go to the file `mathematics`.
# `wraps` is the file for the names that are left.

BEGIN { printf "" > mathematics }
FNR == NR { has[$1] = has[$1] $2; next }
/^\/\* [A-Z][a-z]+.*\*\/$/ {
    put()
    file = groups "/" tolower(substr($2, 1, match($2 " ", /[^A-Za-z]/) - 1)) ".def"
    printf "" > file
}
/^[A-Z_]+\(/ { put(); row = $0; next }
/^ / && row != "" { row = row "\n" $0; next }
{ put() }
END { put() }

function put(    word, rest, count, names, other, i)
{
    if (row == "")
        return
    word = substr(row, 1, index(row, "("))
    rest = substr(row, index(row, ","))
    count = split(substr(row, length(word) + 1, index(row, ",") - length(word) - 1), names, " ")
    other = ""
    if (word ~ /PRINT|SCAN|LOG/) {
        other = substr(rest, 3)
        other = substr(other, 1, index(other, ",") - 1)
    }
    for (i = 1; i <= count; i++)
        if (names[i] in has && (other == "" || other in has)) {
            print word names[i] rest > (has[names[i]] == "m" ? mathematics : file)
            print "WRAP(" names[i] ")" > wraps
            if (other != "")
                print "WRAP(" other ")" > wraps
        }
    row = ""
}
