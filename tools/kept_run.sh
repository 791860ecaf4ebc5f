# One run of the meter that is kept, for ./post, which sets $top, $word, $call and $day and sources this.
#
# A line is in the script, and on the disk, before the meter is given it: what was done is never missing from what is audited.
# The commits of each node, and the number of the run, are noted outside the folder, so that a folder or a storage that was put
# back is found before it is used. What a call leaves that was stopped is left to the next one: tools/left.awk finds it.

folder=$(pwd -P)
notes=${POST_NOTES:-$folder.notes}
meter=                  # its process, while it runs
meter_word=replay       # its word, which the run needs
statement=              # the customer whose statement is open, or will be
nodes=                  # the nodes that are on
unclean=                # the earlier runs without a noted end
all_on=                 # whether they are, and something may be done
left_open=              # whether this run can't have one
all_done=               # whether it has one
came_on=

# --- The kept runs and the notes ---

word_of() { cat "runs/$1.word" 2> /dev/null || echo replay; }
kept() { ls runs 2> /dev/null | sed -n 's/^\([0-9]\{6\}-.*\)\.script$/\1/p'; }
noted() { sed -n "s/^$1 //p" "$notes"; }

# Notes these lines in place of the old ones, or leaves those as they are.
write_notes() { { echo "$1" > "$notes.new" && sync "$notes.new" && mv "$notes.new" "$notes" && sync "$(dirname "$notes")"; } 2> /dev/null; }
# Run $1 has begun.
note_begin() { old=$(grep -v '^run ' "$notes") && write_notes "run $1
$old"; }
# This run has ended, and left nothing: of the nodes that were on these are the commits, of the others the old ones.
note_end() {
    others=$(awk -v nodes="$nodes " '$1 != "run" && $1 != "ended" && !index(nodes, " " $1 " ")' "$notes") &&
        write_notes "run $run_number
ended $run_number$counts${others:+
$others}"
}

# What the runs without a noted end have left: the facts of tools/left.awk.
left_by() {
    set -- "$notes"
    for left in $unclean; do
        set -- "$@" "word=$(word_of "$left")"
        for file in "runs/$left.script" "runs/$left.report"; do set -- "$@" "lines=$(wc -l < "$file")" "$file"; done
    done
    awk -f "$top/tools/left.awk" "$@"
}
# What all kept runs were told: the facts of tools/told.awk.
told_by() { awk -f "$top/tools/told.awk" $(kept | sed 's|.*|runs/&.script runs/&.report|'); }

# --- How a call ends ---

# Ends the run, and leaves the rest to the next call.
leave() {
    [ -z "$meter" ] || (ask end) 2> /dev/null
    exec 3>&-
    [ -z "$meter" ] || wait "$meter"
    exit "$1"
}
alarm() { echo "post: ALARM: $*. Stop, and keep the folder: docs/TROUBLESHOOTING.md, \"Alarms\"" >&2; leave 3; }
give_up() {
    case $* in 'ALARM: '*) alarm "${*#ALARM: }" ;; esac
    echo "post: $*" >&2
    leave 1
}
# Ends a run in which nothing is left: the commits are noted before `end` is given.
finish() {
    counts=
    [ -z "$statement" ] || close_statement
    for node in $nodes; do
        ask "off $node"
        surely "on $node"
        want "up $node commits *"
        counts="$counts
$node $(last)"
    done
    if [ -z "$left_open" ]; then
        if note_end; then all_done=yes; else echo "post: $notes cannot be written: make room there, and call again" >&2; fi
    fi
    ask end
    sync -d "$run.report"
    exec 3>&-
    wait "$meter"
}
# The same, after a sentence for the operator: its own, or that of a reply.
stop() { echo "post: $*" >&2; result=1; finish; exit 1; }
refuse() {
    sentence=$(sense_of "${1:-$reply}")
    case $sentence in 'ALARM: '*) give_up "$sentence" ;; esac
    stop "$sentence"
}

# The end of a call whose run ended too soon: if its own end was noted, nothing of it is left.
cut_off() {
    exec 3>&-
    wait "$meter"
    [ -z "$all_done" ] || { echo "post: all of this call is done; its run has no end ($*)" >&2; exit "$result"; }
    echo "post: $*. What is left is finished by the next call" >&2
    exit 2
}
# The run can't be kept: the meter is given nothing more.
lost() { cut_off "$run cannot be kept, and nothing more is done: make room, or look at the disk"; }
# The meter has ended. If it had not begun, it is as if the call had not been made.
ended() {
    exec 3>&-
    wait "$meter"
    said=$(grep -v 'not proved' <&6)
    if [ ! -s "$run.report" ] && [ -n "$said" ]; then
        note_begin "$last_run" && rm -f "$run.script" "$run.report" "$run.rates" "$run.word"
    fi
    case $said in
    'cannot use '*) said="$said (no room for all storages once more, another program in the folder, or docs/TROUBLESHOOTING.md)" ;;
    stopped) said='claims.nv or departments.nv failed: look at the disk' ;;
    esac
    cut_off "the meter has ended: ${said:-it was stopped}"
}

# --- Lines and replies ---

# One line and its reply, in $reply.
ask() {
    { printf '%s\n' "$*" >> "$run.script" && sync -d "$run.script" "$run.report"; } 2> /dev/null || lost
    printf '%s\n' "$*" 2> /dev/null >&3
    hear
}
# The next line of the report, in $reply. What was printed is on the disk before the reply says so.
hear() {
    IFS= read -r reply <&4 || ended
    case $reply in printed*) [ ! -f prints.txt ] || sync -d prints.txt 2> /dev/null || lost ;; esac
    printf '%s\n' "$reply" 2> /dev/null >> "$run.report" || lost
}
# The same, until there is another reply than that a node failed, which is switched on first. $failed says whether one did.
surely() {
    failed=
    for _ in 1 2 3 4 5; do
        ask "$@"
        case $reply in
        'power '* | 'fault '*) failed=yes; ask "on ${reply#* }"; came_on=$reply ;;
        'on already '*) reply=$came_on; return ;;
        *) return ;;
        esac
    done
    give_up "$(sense_of "$reply")"
}
last() { echo "${reply##* }"; }
want() { case $reply in $1) ;; *) give_up "$(sense_of "$reply")" ;; esac; }

# Says a line to the operator. If it can't be shown the next call says it.
say() { echo "$*" || give_up 'standard output cannot be written'; }

# What a reply asks of the operator, or the reply itself.
sense_of() {
    last_word=${1##* } second=${1#* }
    case $last_word in *[!0-9]*) date= ;; *) date=$(date_of "$last_word" 2> /dev/null) ;; esac
    while IFS='|' read -r pattern sentence; do
        case $1 in
        $pattern) echo "$sentence" | sed "s/DEV/${second%% *}/g; s/LAST/$last_word/g; s/DATE/$date/g"; return ;;
        esac
    done < "$top/tools/sentences"
    echo "the meter answers: $1"
}

# --- How a run begins ---

# A node comes on with the commits that are due, or with $more after a run that was stopped.
on() {
    case " $nodes " in *" $1 "*) return ;; esac
    surely "on $1"
    want "up $1 commits *"
    due=$(echo "$facts" | sed -n "s/^count $1 //p") due=${due:-0}
    may_be=$(echo "$facts" | sed -n "s/^more $1 //p") may_be=$((due + ${may_be:-$more}))
    [ "$(last)" -ge "$due" ] && [ "$(last)" -le "$may_be" ] ||
        alarm_first "$1 comes on with $(last) commits, and $due are due: its storage was lost, is an older copy, or was used without post"
    nodes="$nodes $1"
}

# The storage of this word shows the claims, or what departments have spent, that earlier runs were told.
compare_own() {
    told=$(told_by)
    case $meter_word in
    claims)
        # A claim with this number cannot be, and is answered by the last one.
        ask "claim 1026 1 0201$(printf '%0124d' 0)"
        want 'refused claim wrong claim *'
        last_claim=$(last)
        set -- $(echo "$told" | sed -n 's/^claims //p')
        [ "$last_claim" -ge "$1" ] && [ "$last_claim" -le "$2" ] ||
            alarm_first "the last claim is $last_claim, and $1 is due: claims.nv was lost, is an older copy, or was used without post" ;;
    departments)
        for department in $(echo "$told" | sed -n 's/^department \([0-9]*\) .*/\1/p'); do
            ask "dept spent $department"
            due=$(echo "$told" | sed -n "s/^department $department \([0-9]*\) .*/\1/p")
            spent=$(echo "$reply" | sed -n 's/^spent [0-9]* \([0-9]*\) .*/\1/p')
            [ "${spent:-0}" -ge "$due" ] ||
                alarm_first "department $department has spent ${spent:-nothing}, and $due is due: departments.nv was lost, or is an older copy"
        done ;;
    esac
}

# An alarm before anything is done.
alarm_first() { (ask end) 2> /dev/null; [ -n "$all_on" ] || set_aside; alarm "$@"; }
# A run in which nothing was done is none of those that are judged.
set_aside() {
    aside=runs/alarm-$(date +%s)-${run#runs/}
    for part in script report rates word; do mv "$run.$part" "$aside.$part"; done
    note_begin "$last_run"
    exec 3>&-
    wait "$meter"
    meter=
}

# What must be so before a run is begun.
look_first() {
    last_name=$(kept | tail -n 1)
    last_run=$(echo "${last_name%%-*}" | sed 's/^0*//') last_run=${last_run:-0}
    if [ ! -e "$notes" ]; then
        [ "$last_run" -eq 0 ] ||
            alarm "$notes is missing, where the commits are noted. If it alone was lost, docs/TROUBLESHOOTING.md says how it is made again"
        write_notes 'run 0
ended 0' || die "cannot write $notes: POST_NOTES may name another file outside of the folder"
    fi
    [ "$last_run" -ge "$(noted run)" ] || alarm "the folder is an older copy: its last run is $last_run, and run $(noted run) was begun"
    unclean=$(kept | awk -v ended="$(noted ended)" '{ number = $0; sub(/-.*/, "", number); if (number + 0 > ended) print }')
    # A commit whose answer is missing; how many a run without lines makes is not known here.
    more=0
    for name in $unclean; do
        [ "$more" -gt 1 ] || more=1
        case $(word_of "$name") in replay | claims | departments | manifest | statement) ;; *) more=4294967295 ;; esac
    done
    day_before=$(echo "$last_name" | cut -c 8-17)
    ! expr "$day" \< "$day_before" > /dev/null || [ -z "$day_before" ] ||
        die "the last run was on $day_before, and this day is $day: set the clock right, or type --day"
    case $(ls -ld ./*.nv 2> /dev/null | cut -c 11) in
    *+*) echo 'post: a storage has an ACL: others may read its keys (getfacl *.nv)' >&2 ;;
    esac
}

# Whether a run of the word $meter_word can finish what needs the word $1.
fits() { case $1 in any | "$meter_word") ;; replay) [ "$meter_word" != departments ] ;; *) false ;; esac; }

# Begins the run of this call, finishes what earlier runs have left, and switches these nodes on. What needs another word is
# finished first, in a run of its own.
begin() {
    find_left
    for other in replay claims departments; do
        if echo "$facts" | grep -q "^left $other " && ! fits "$other"; then mend_run "$other"; find_left; fi
    done
    begin_run "$word" "$call" "$@"
}

find_left() {
    look_first
    facts=$(left_by) || die "cannot read the runs in $folder/runs: nothing is done"
}

# A run of its own, of this word, in which nothing is done but what earlier ones have left.
mend_run() {
    own_word=$meter_word own_statement=$statement meter_word=$1 statement=
    begin_run mend mend
    finish
    reported="$reported ${run#runs/}"
    meter_word=$own_word statement=$own_statement meter= nodes= all_on= left_open= all_done= came_on=
}

# Begins a run: begin_run WORD CALL NODE ..
begin_run() {
    run_number=$((last_run + 1)) run=runs/$(printf '%06d' $((last_run + 1)))-$day-$1
    keep_papers "$2"
    shift 2
    start_meter
    # All nodes, before anything is done.
    for node in "$@" $(echo "$facts" | sed -n 's/^node //p'); do on "$node"; done
    compare_own
    all_on=yes
    [ -z "$statement" ] || open_statement
    [ -z "$unclean" ] || mend
}

# The papers of the run, and the note that it has begun.
keep_papers() {
    program=${METER:-$("$top/meter" --program)} || exit 2
    pipes=$(mktemp -d) && mkfifo "$pipes/script" "$pipes/report" || exit 2
    trap 'rm -rf "$pipes"' EXIT
    trap 'echo "post: stopped. What is left is finished by the next call" >&2; exit 130' HUP INT TERM
    script_head="# post $1"
    { echo "$script_head" > "$run.script" && true > "$run.report" && echo "$meter_word" > "$run.word" &&
        if [ -f rates.toml ]; then cat rates.toml; fi > "$run.rates" &&
        sync "$run.rates" "$run.word" runs . && note_begin "$run_number"; } 2> /dev/null || {
        rm -f "$run.script" "$run.report" "$run.rates" "$run.word"
        echo "post: cannot keep a run in $folder/runs, or write $notes: nothing is done" >&2
        exit 2
    }
}

start_meter() {
    : > "$pipes/error"
    # Both ends are open before the program begins: one that is killed at once leaves an end of file, and no one waiting for it.
    exec 3<> "$pipes/script" 5<> "$pipes/report"
    "$program" "$meter_word" 2> "$pipes/error" < "$pipes/script" >&5 3>&- 5>&- &
    meter=$!
    exec 4< "$pipes/report" 6< "$pipes/error" 5>&-
    echo "$script_head" >&3
    ask "day $day"
    want 'day *'
    rm -rf "$pipes"
}
