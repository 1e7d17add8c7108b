# A man page from a program's --help. Its parts: the line of usage; a heading at the margin that ends in a colon; a list line, two spaces in
# front and two behind its term; what is deeper goes on with the line before; everything else is running text.
function plain(text) {
    gsub(/\\/, "\\e", text)
    gsub(/-/, "\\-", text)
    if (text ~ /^[.']/) text = "\\\&" text
    return text
}
function heading(text) { printf ".SH %s\n", toupper(text) }
BEGIN { printf ".TH %s 1 \"\" \"Gullcordage %s\"\n", toupper(name), version }
NR == 1 {
    usage = $0
    sub(/^usage: /, "", usage)
    next
}
NR == 3 {
    lead = $0
    sub(/\..*/, "", lead)
    heading("name")
    printf "%s \\- %s\n", name, plain(tolower(substr(lead, 1, 1)) substr(lead, 2))
    heading("synopsis")
    print plain(usage)
    heading("description")
}
/^$/ { blank = 1; next }
/^[A-Z][a-z ]*:$/ { heading(substr($0, 1, length($0) - 1)); blank = 0; next }
/^  [^ ]/ {
    line = substr($0, 3)
    at = match(line, /  +/)
    printf ".TP\n.B %s\n%s\n", plain(substr(line, 1, at - 1)), plain(substr(line, at + RLENGTH))
    listed = 1
    blank = 0
    next
}
{
    is_more = /^   /
    sub(/^ +/, "")
    if (blank || (listed && !is_more)) print ".PP"
    if (!is_more) listed = 0
    blank = 0
    print plain($0)
}
END {
    heading("see also")
    split("gullcheck gullpack gullunpack gulllist", other, " ")
    for (k = 1; k in other; k++)
        if (other[k] != name) printf ".BR %s (1),\n", other[k]
    print ".BR gullcordage (3)"
}
