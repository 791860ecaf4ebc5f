# What runs without a noted end have left, for ./post. It reads the notes, and then the script and the report of each run, before
# each of which `lines=N` says how many of its lines have their ends: the front of one was never given, or is no answer. `word=WORD`
# before a script is the word of its run.
#     count NODE N                              so many commits the replies make
#     more NODE N                               up to so many more may have been made, if that is above 1
#     node NODE                                 it was on
#     done LINE                                 a deposit that was taken, or a request that was granted and settled
#     left WORD ..                              what is to be finished, in a run of this word, or of `any`; `replay` is any but departments
#     .. job J STATE DEV PIECE CLASS POSTAGE D  it is open, STATE is printed or open; D is its department, 0 if it has none, or none
#     .. order                                  an order may have made a job that no reply tells
#     .. asked DEV GIVEN LINE                   a request is not settled; GIVEN says whether the line was answered
#     .. again LINE                             a deposit, a scan, a claim or a quota has no answer
# A commit whose answer is missing shows when its node comes on, with one more. A claim may have made one that no reply tells.

# A node comes on with so many commits: those that the replies make, or up to as many more as no reply tells.
function come_on(node, commits) {
    on[node] = 1
    if (commits > count[node] && commits <= count[node] + 1 + more[node]) { count[node] = commits; more[node] = 0 }
}

# The reply to a line, which is empty if there is none.
function take(reply_text, line_text, reply, line, failed) {
    split(reply_text, reply, " ")
    split(line_text, line, " ")
    failed = reply_text ~ /^(power|fault|$)/

    # the commits
    if (reply[1] == "up") come_on(reply[2], reply[4])
    if (line[1] == "claim" && line[2] <= 1024 && reply[1] != "refused") more["verifier"]++
    if (line[1] == "manifest" && line[2] == "check") more["verifier"] += 512
    if (reply_text ~ /^(made|applied) |^(mark|released) .* new /) count[reply[2]]++
    if (reply_text ~ /^sent d. request / && line[1] == "ask") count[reply[2]]++
    if (reply_text ~ /^(registered|opened|suspended|resumed) |^(deposited|ruled|settled) .* new( |$)/) count["centre"]++
    if (reply_text ~ /^(ordered|held|printed|printer fault|closed) /) count["host"]++
    if (reply_text ~ /^trusted |^accepted .* new$/) count["verifier"]++

    # the jobs
    if (line[1] == "order") unsure = failed
    if (reply_text ~ /^refused host open job / && !(reply[5] in job)) unsure = 1
    if (reply[1] == "ordered") {
        job[reply[2]] = "open " line[2] " " line[3] " " line[4] " " reply[4]
        department[reply[2]] = run_word == "departments" ? 0 : "none"
    }
    if (line_text ~ /^dept assign / && (failed || reply[1] == "assigned")) department[line[4]] = line[3]
    if (reply[1] == "printed" && reply[2] in job) sub("open", "printed", job[reply[2]])
    if (line[1] == "close" && reply_text ~ /^closed |^refused host state closed/) { delete job[line[2]]; unsure = 0 }

    # the requests, deposits, scans, claims and quotas
    if (line[1] == "ask" && (failed || reply[1] == "sent")) { asked[line[2]] = line_text; given[line[2]] = failed ? "no" : "yes" }
    if (line[1] == "ask" && reply[1] == "refused" && reply[3] != "busy") delete asked[line[2]]
    if (reply_text ~ /^(ruled|applied) /) verdict[reply[2]] = reply[5]
    if (reply[1] == "settled" && reply[2] in asked) {
        if (verdict[reply[2]] == 0) print "done " asked[reply[2]]
        delete asked[reply[2]]
    }
    if (line[1] ~ /^(deposit|scan)$/ || line[1] == "claim" && line[2] <= 1024) { if (failed) again[line_text] = 1; else delete again[line_text] }
    if (line_text ~ /^dept quota /) { if (failed) quota[line[3]] = line_text; else delete quota[line[3]] }
    if (reply[1] == "deposited") print "done " line_text
}

# The lines of a run that no reply has come to.
function end_run() {
    while (answered < given_lines) take("", text[++answered])
    given_lines = answered = 0
}

NR == FNR { if ($2 ~ /^[0-9]+$/) count[$1] = $2; next }
FILENAME ~ /script$/ && FNR == 1 { end_run(); run_word = word }
FNR > lines { next }
FILENAME ~ /script$/ { if (!/^(#|$)/) text[++given_lines] = $0; next }
# The movements of a statement come before its last line.
/^(deposit|reset|refund|withdraw) / { next }
{ take($0, text[++answered]) }

END {
    end_run()
    for (node in count) print "count " node " " count[node]
    for (node in more) print "more " node " " more[node] + 1
    for (node in on) print "node " node
    for (number in job)
        print "left " (department[number] == "none" ? "replay" : "departments") " job " number " " job[number] " " department[number]
    if (unsure) print "left any order"
    for (device in asked) print "left any asked " device " " given[device] " " asked[device]
    for (line in again) print "left " (line ~ /^claim / ? "claims" : "any") " again " line
    for (number in quota) print "left departments again " quota[number]
}
