# Lists the events of a MySQL binary log of version 4: where each begins, its size, its type, and of a rows event the bytes
# of its rows. Reads the bytes of the log as decimal numbers, as: od -An -v -tu1 LOG | awk -f events.awk

function number(at, bytes,    i, n) {
    n = 0
    for (i = bytes - 1; i >= 0; i--) n = n * 256 + byte[at + i]
    return n
}

# the text of a query, behind 13 fixed bytes, the status bytes, the schema and a zero byte
function text(at, end,    i, s) {
    s = ""
    for (i = at + 32 + number(at + 30, 2) + byte[at + 27] + 1; i < end; i++) s = s sprintf("%c", byte[i])
    return s
}

# what stands behind the fixed part of a rows event of few columns: bitmaps and images
function rows(at, end,    i, s) {
    s = ""
    for (i = at + 27 + number(at + 27, 2); i < end; i++) s = s sprintf(" %02x", byte[i])
    return s
}

# the name of a mapped table
function table(at,    i, s, len) {
    s = ""
    len = byte[at + 27]
    for (i = 0; i < len; i++) s = s sprintf("%c", byte[at + 28 + i])
    s = s "."
    at += 28 + len + 1
    for (i = 1; i <= byte[at]; i++) s = s sprintf("%c", byte[at + i])
    return s
}

BEGIN {
    name[2] = "Query"; name[3] = "Stop"; name[4] = "Rotate"; name[15] = "Format description"; name[16] = "Xid"
    name[19] = "Table map"; name[29] = "Rows query"; name[30] = "Write rows"; name[31] = "Update rows"
    name[32] = "Delete rows"; name[33] = "Gtid"; name[34] = "Anonymous gtid"; name[35] = "Previous gtids"
}
{ for (i = 1; i <= NF; i++) byte[n++] = $i }
END {
    for (at = 4; at + 19 <= n; at += size) {
        type = byte[at + 4]
        size = number(at + 9, 4)
        if (size < 19) exit 1
        line = sprintf("%6d %5d  %s", at, size, (type in name) ? name[type] : "type " type)
        if (type == 2) line = line ": " text(at, at + size)
        if (type == 19) line = line ": " table(at)
        if (type >= 30 && type <= 32) line = line ":" rows(at, at + size)
        print line
    }
}
