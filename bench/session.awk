# Prints the text of a session of N events, in turns of 40: a page, an IN, a write without support, a read, 34 writes with support, a
# demount that releases the page's set, and a write that is told so. All pages are the same 52 bytes.
BEGIN {
    for (i = 0; i < N; i++) {
        turn = i % 40
        nexus = int(i / 40) % 4
        if (turn == 0) print "out nexus " nexus " page 0010h " (i == 0 ? "local encrypt decrypt lock ckod key 07*32" : "at 0 length 52")
        else if (turn == 1) print "in nexus " nexus " page 0020h"
        else if (turn == 2) print "write nexus " nexus " not supported"
        else if (turn == 3) print "read nexus " nexus " encrypted key main"
        else if (turn == 38) print "demount"
        else print "write nexus " nexus " supported"
    }
}
