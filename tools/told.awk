# What all kept runs were told, for ./post. It reads the script and the report of each.
#     limit NAME USED OF            a limit that no line frees
#     claim N CUSTOMER MARK STATE   STATE is credited, open, or unsure if no whole answer says that it is kept
#     credit CUSTOMER MILLS         all that was credited to a customer
#     claims TOLD GIVEN             the last claim that a reply shows, and the last that may be kept
#     department D SPENT JOBS       at least so much it has spent, for so many jobs

function size(list, at, n) { n = 0; for (at in list) n++; return n }

# The claim of a line, and its reply, which is empty if there is none. No claim has a number above 1,024: such a line is a question.
function take_claim(reply_text, line, reply) {
    if (line[1] != "claim" || line[2] + 0 > 1024 || reply_text ~ /^refused claim /) return
    claim[line[2]] = line[3] " " line[4]
    if (line[2] + 0 > most_given) most_given = line[2] + 0
    if (reply_text ~ /^(credited|refused verifier|power verifier|fault verifier) /) {
        if (line[2] + 0 > most_told) most_told = line[2] + 0
        if (!(line[2] in credit)) state[line[2]] = "open"
    }
    if (reply_text !~ /^credited .* (new|again)$/) return
    split(reply_text, reply, " ")
    state[line[2]] = "credited"
    credit[line[2]] = reply[5]
    block[reply[3], int(reply[4] / 512)] = 1
}

# The department of a reply.
function take_department() {
    if ($1 == "ordered") price[$2] = $4
    if ($1 == "quota" || $1 == "spent") jobs[$2] += 0
    if ($1 != "assigned" || ($4 != "left" && $4 != "again") || $2 in taken) return
    taken[$2] = 1
    spent[$3] += price[$2]
    jobs[$3]++
}

# The line at which a run was stopped has no reply.
function end_run(line) {
    if (at < lines && split(text[at + 1], line, " ")) take_claim("", line)
    lines = at = 0
}

FILENAME ~ /script$/ { if (FNR == 1) end_run(); if (!/^(#|$)/) text[++lines] = $0; next }
# The movements of a statement come before its last line.
/^(deposit|reset|refund|withdraw) / { next }
{
    split(text[++at], line, " ")
    if ($1 == "ordered") { last = $2; open[$2] = 1 }
    if (line[1] == "close" && /^(closed|refused host state closed)/) delete open[line[2]]
    if ($1 == "accepted") block[$2, int($3 / 512)] = 1
    take_claim($0, line)
    take_department()
}

END {
    end_run()
    oldest = last + 1
    for (job in open) if (job + 0 < oldest) oldest = job + 0
    print "limit verifier-blocks " size(block) " 1024"
    print "limit jobs-since-the-oldest-open " last + 1 - oldest " 1024"
    print "limit claims " size(state) " 1024"
    for (number in claim) print "claim " number " " claim[number] " " (number in state ? state[number] : "unsure")
    for (number in credit) { split(claim[number], word, " "); sum[word[1]] += credit[number] }
    for (customer in sum) print "credit " customer " " sum[customer]
    print "claims " most_told + 0 " " most_given + 0
    for (number in jobs) {
        print "department " number " " spent[number] + 0 " " jobs[number]
        print "limit jobs-of-department-" number " " jobs[number] " 64"
    }
}
