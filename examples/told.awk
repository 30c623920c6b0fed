# awk -f told.awk SCRIPT ANSWERS: a script's comments, each command and, under it, what was answered, in words.

function tag(class, offset, micro) {
    if (class == "0") return "NEVER"
    if (class == "2") return "FOREVER"
    if (class == "3") return "none"
    if (micro == "18446744073709551615") micro = "M"
    return "(" offset ", " micro ")"
}

function cut(word) { return length(word) > 48 ? substr(word, 1, 48) ".." : word }

function many(n, one, more) { return n == "1" ? "one " one : n " " more }

# The words from k to n, after a space each.
function rest(w, k, n,    s) {
    for (; k <= n; k++) s = s " " w[k]
    return s
}

# What a command asks, in words.
function asked(line,    w, n, bytes) {
    n = split(line, w, " ")
    bytes = length(w[2]) / 2 " bytes of plan"
    if (w[1] == "plan") return "compile " bytes (n > 2 ? " into " w[3] " bytes" : "")
    if (w[1] == "image") return "use " length(w[2]) / 2 " bytes as the compiled plan"
    if (w[1] == "witness") return "is there a closed walk without delay in " bytes "?"
    if (w[1] == "check" && n > 3) return "is this a closed walk without delay in " bytes ": edges" rest(w, 4, n) "?"
    if (w[1] == "path" && n == 4) return "which way from member " w[3] " to member " w[4] " has the least delay in " bytes "?"
    if (w[1] == "slab" && n == 2) return "lend " w[2] " slab words from here on"
    if (w[1] == "room" && n == 2) return "lend " w[2] " delivery words from here on"
    if (w[1] == "open" && n == 2) return "open a session, identity " w[2]
    if (w[1] == "abort" && n == 2) return "the owner aborts, code " w[2]
    if (w[1] == "dump" && n == 1) return "show what the session holds"
    if (w[1] == "request" && n == 8) return "member " w[2] " asks: " wish(w)
    if (w[1] == "request") return "a request of " many(n - 1, "word", "words")
    return cut(line)
}

function wish(w) {
    if (w[3] == "1") return "Hello, identity " w[4]
    if (w[3] == "2") return "Publish, revision " w[4] ": " (w[5] == "3" ? "no event to come" : "next event at " tag(w[5], w[6], w[7]))
    if (w[3] == "3") return "Complete, up to " tag(w[5], w[6], w[7])
    if (w[3] == "4") return "Payload over route " w[4] " for " tag(w[5], w[6], w[7]) ", handle " w[8]
    if (w[3] == "5") return "ConfirmIdle, revision " w[4]
    if (w[3] == "6") return "Stop"
    if (w[3] == "7") return "Abort, code " w[4]
    return "kind " w[3]
}

# An answer, in words.
function told(line,    w, n) {
    n = split(line, w, " ")
    if (w[1] == "compiled") return "compiled, " w[2] " bytes: " cut(w[3])
    if (w[1] == "image") return "in use; whether they are a compiled plan, the next call says"
    if (w[1] == "refused") return "refused with " w[2] ": " why[w[2]] given(w)
    if (w[1] == "witness") return w[2] == "0" ? "there is none" : "yes: edges" rest(w, 3, n)
    if (w[1] == "path") return w[2] == "0" ? "there is none" : "edges" rest(w, 3, n)
    if (w[1] == "check") return w[2]
    if (w[1] == "opened") return "the session is open"
    if (w[1] == "deliver") return "to member " w[2] ": " sent(w)
    if (w[1] == "answered") return (w[2] == "0" ? "nothing is sent" : many(w[2], "delivery", "deliveries") " in all") (w[3] == "1" ? "; the session is finished" : "")
    if (w[1] == "state" && n == 5) return "a session of " many(w[2], "member", "members") ", identity " w[3] (w[4] == "0" ? "" : ", ended by " cause(w[4], w[5]))
    if (w[1] == "member" && n > 24) return record(w)
    if (w[1] == "error") return "line " w[2] " cannot be read; nothing changes"
    if (w[1] == "state" || w[1] == "member" || w[1] == "word") return "put in place"
    if (w[1] == "slab" || w[1] == "room") return "lent"
    return line
}

function given(w) {
    if (w[2] == "8") return " (mask " w[3] ")"
    if (w[2] == "7") return " (edge " w[4] ", member " w[5] ")"
    if (w[2] == "9") return " (from " w[4] " to " w[5] ")"
    if (w[2] == "5" || w[2] == "6") return " (" w[4] ")"
    return ""
}

function cause(number, code) { return number ": " why[number] (number == "20" ? ", code " code : "") }

function sent(w) {
    if (w[3] == "1") return "Started"
    if (w[3] == "2") return "Grant for revision " w[4] ": it may go up to " tag(w[5], w[6], w[7])
    if (w[3] == "3") return "Payload over route " w[4] " for " tag(w[5], w[6], w[7]) ", handle " w[8]
    if (w[3] == "4") return "Idle at revision " w[4] ": it may stop"
    if (w[3] == "5") return "Stopped"
    if (w[3] == "6") return "SuppressPublication: nobody waits for its news up to " tag(w[5], w[6], w[7])
    return "Failed, " cause(w[4], w[8])
}

function record(w,    s, k) {
    s = "member " w[2] ": " (w[3] == "1" ? "joined" : "not joined")
    if (w[4] != "0") s = s ", published revision " w[5] (w[4] == "1" ? " with no event" : " with event " tag(w[6], w[7], w[8]))
    if (w[11] != "3") s = s ", granted up to " tag(w[11], w[12], w[13]) (w[9] == "1" ? " for revision " w[10] : "")
    if (w[14] != "3") s = s ", news not waited for up to " tag(w[14], w[15], w[16])
    if (w[17] != "3") s = s ", completed " tag(w[17], w[18], w[19])
    if (w[20] == "1") s = s ", confirmed idle at " w[21]
    if (w[22] == "1") s = s ", idle at " w[23]
    if (w[24] == "1") s = s ", stopped"
    for (k = 0; k < w[25]; k++) s = s (k ? " " : ", in transit ") tag("1", w[26 + 2 * k], w[27 + 2 * k])
    return s
}

# Takes the next answer.
function take() { if (at < answers) print "    " told(answer[++at]) }

BEGIN {
    n = split("1 the bytes are no plan|2 more than 32 members|3 more than 256 edges|4 a capacity above 32|5 a member id twice|" \
        "6 an edge id twice|7 an end that nobody declared|8 a cycle without delay|9 a minimum delay above 2^64-1|" \
        "10 the output is too short|11 no compiled plan|12 a delay above 2^63-1|13 the slab is too short|14 the state is not well formed|" \
        "15 the delivery buffer is too short|16 the request is malformed|17 the offset is above 2^63-1|20 aborted|21 no such member|" \
        "22 Hello with another identity, or a second one|23 not at this point of a member's life|24 a publication that cannot be|" \
        "25 a completion that cannot be|26 no such route|27 the route is another member's|28 a payload that its route or grant does not allow|" \
        "29 the destination is idle, stopped or past that time|30 the destination cannot hold one more tag|" \
        "31 the publication is not this revision with no event|32 a stop without idle", list, "|")
    for (i = 1; i <= n; i++) { split(list[i], word, " "); why[word[1]] = substr(list[i], length(word[1]) + 2) }
    script = ARGV[1]
    while ((getline line < ARGV[2]) > 0) answer[++answers] = line
    while ((getline line < script) > 0) {
        if (line == "") { print ""; continue }
        if (line ~ /^#/) { sub(/^# ?/, "", line); print line; continue }
        print "  " asked(line)
        split(line, first, " ")
        if (first[1] == "request" || first[1] == "abort") while (answer[at + 1] ~ /^deliver /) take()
        take()
        if (first[1] == "dump") while (answer[at + 1] ~ /^member [0-9]/) take()
    }
    exit 0
}
