# Tells what form a file is in, and decodes base64 and hex.
#
# Its input are a file's bytes as decimal numbers, parted by blanks, as `od -An -v -tu1` writes them; the word 'unreadable'
# stands where no more could be read.
#   without `form`         prints 'base64', 'hex' or 'bytes'
#   -v form=base64 | hex   prints the bytes that the text stands for in octal, as printf takes them, 512 to a line.
#                          Of damaged text the last line says what is wrong and where, and the exit status is 1.
# Decoding stops at `most` bytes. Text that has fewer in its first `limit` characters, and goes on, is refused.
# Plain awk: no byte is ever written as a character, so that it doesn't matter what an awk makes of 0 and of those above 127.

BEGIN {
    white[9] = white[10] = white[13] = white[32] = 1
    for (i = 0; i < 26; i++) {
        six[65 + i] = i
        six[97 + i] = 26 + i
    }
    for (i = 0; i < 10; i++) {
        six[48 + i] = 52 + i
        half[48 + i] = i
    }
    six[43] = 62
    six[47] = 63
    for (i = 0; i < 6; i++) {
        half[65 + i] = 10 + i
        half[97 + i] = 10 + i
    }
    line = 1
}

# The place of the character at hand.
function here() {
    return "character " at " (line " line ", place " place ")"
}

# Ends with a message.
function wrong(message) {
    print message
    status = 1
    ended = 1
    exit 1
}

# Puts one byte. The line it stands in is printed when it is full.
function put(byte) {
    row = row sprintf("\\%03o", byte)
    bytes++
    if (bytes % 512 == 0) flush_row()
    if (bytes == most) {
        ended = 1
        exit 0
    }
}

function flush_row() {
    if (row != "") print row
    row = ""
}

# The character at hand, as it is to be seen in a message.
function shown(c) {
    if (c > 32 && c < 127) return sprintf("'%c'", c)
    return sprintf("the byte %02x", c)
}

function stranger(c) {
    wrong(here() " is " shown(c) ", which is not " form)
}

# Takes a character of hex: the first of two, or the second.
function take_hex(c) {
    if (!(c in half)) stranger(c)
    held++
    if (held == 1) {
        kept = half[c]
        return
    }
    held = 0
    put(kept * 16 + half[c])
}

# Takes a character of base64: of a group of four, `held` are there, and `kept` is the number that they make. `padding`
# counts the '=' of the last group.
function take_base64(c) {
    if (padding > 0 && held == 0) wrong(here() " is " shown(c) ", which stands behind the padding")
    if (c == 61) {
        if (held < 2) wrong(here() " is '=', and padding can't stand there: a group of four begins with two characters")
        padding++
        held++
        kept *= 64
    } else {
        if (!(c in six)) stranger(c)
        if (padding > 0) wrong(here() " is " shown(c) ", where '=' has to follow '='")
        held++
        kept = kept * 64 + six[c]
        last = here()
    }
    if (held < 4) return
    # 24 bits: three bytes, or fewer where there is padding, and then the bits behind them are 0
    if (padding == 1 && int(kept / 64) % 4 != 0 || padding == 2 && int(kept / 4096) % 16 != 0)
        wrong(last ", the last before the padding, has bits left over that are not 0")
    whole = kept
    held = kept = 0
    put(int(whole / 65536))
    if (padding < 2) put(int(whole / 256) % 256)
    if (padding < 1) put(whole % 256)
}

# Without a form: the first characters that aren't white decide, eight of them at most.
form == "" {
    for (i = 1; i <= NF; i++) {
        if ($i in white) continue
        front = front $i " "
        fronts++
        if (fronts == 8) exit
    }
    next
}

{
    for (i = 1; i <= NF; i++) {
        if ($i == "unreadable") wrong("it can't be read to its end")
        c = $i + 0
        at++
        place++
        if (at > limit) wrong("it has more than " limit " characters")
        if (c in white) {
            if (c == 10) {
                line++
                place = 0
            }
        } else if (form == "hex") {
            take_hex(c)
        } else {
            take_base64(c)
        }
    }
}

END {
    if (form == "") {
        if (index(front, "99 72 78 105 100 80 ") == 1) print "base64"
        else if (front == "55 48 55 51 54 50 55 52 ") print "hex"
        else print "bytes"
        exit 0
    }
    if (!ended) {
        if (form == "hex" && held == 1) end = "with half a byte: the number of its digits is odd"
        else if (held > 0) end = "with " held " characters of a group of four: characters or padding (=) are missing"
        if (end != "") {
            print "it ends at character " at " " end
            exit 1
        }
    }
    if (status == 0) flush_row()
    exit status
}
