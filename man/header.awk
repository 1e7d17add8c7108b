# The library's man page from its header, which is its manual: comments are running text, code stands as it is.
function plain(text) {
    gsub(/\\/, "\\e", text)
    gsub(/-/, "\\-", text)
    if (text ~ /^[.']/) text = "\\\&" text
    return text
}
function words(text) {
    sub(/ *\*\/$/, "", text)
    if (text ~ /^    /) { printf ".PP\n.nf\n%s\n.fi\n.PP\n", plain(text); return }
    sub(/^ +/, "", text)
    if (text == "") print ".PP"
    else print plain(text)
}
function code(text) {
    if (!in_code) print ".PP\n.nf"
    in_code = 1
    print plain(text)
}
function end_code() {
    if (in_code) print ".fi\n.PP"
    in_code = 0
}
BEGIN {
    printf ".TH GULLCORDAGE 3 \"\" \"Gullcordage %s\"\n", version
    print ".SH NAME\ngullcordage \\- checks BLAST version 4 volumes, packs and unpacks Easel dsqdata packets"
    print ".SH SYNOPSIS\n.B #include <gullcordage.h>\n.SH DESCRIPTION"
}
/^#(ifdef|ifndef|endif|include|define GULLCORDAGE_H)/ || /^extern "C"/ { skipping = /^#ifdef/; next }
skipping && /^}/ { skipping = 0; next }
in_comment {
    text = $0
    sub(/^ ?\* ?/, "", text)
    if ($0 ~ /\*\/$/) in_comment = 0
    if (text != "/") words(text)
    next
}
/^\/\*/ {
    end_code()
    print ".PP"
    if ($0 !~ /\*\/$/) in_comment = 1
    text = $0
    sub(/^\/\* ?/, "", text)
    words(text)
    next
}
/^$/ { end_code(); next }
{ code($0) }
END {
    end_code()
    print ".SH SEE ALSO\n.BR gullcheck (1),\n.BR gullpack (1),\n.BR gullunpack (1),\n.BR gulllist (1)"
}
