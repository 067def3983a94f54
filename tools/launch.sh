# What the launchers at the top do, which read this: builds a proved program, if it isn't built or a source changed since, and runs it.
# They set `label`, the program's name; `root`, the repository; `main`, the crate of the program; and `answered`, words that the program
# answers with status 0. Nothing but the program writes to standard output.

# shellcheck source=tools/crates.sh
. "$root/tools/crates.sh"

# What the launcher itself ends with if there is no program to run. The program ends with 0, 1 or 2.
readonly NOT_BUILT=125
# What README.md says of the first build.
readonly FIRST_BUILD="15 to 45 minutes"
# The kilobytes that one process of a proof takes at most.
readonly JOB_MEMORY=2000000
# A process of a proof first reads the crates below, so one more costs most where those are many. A crate gets one process, and
# another one each time that JOB_SHARE times its lines are as many as there are up to it.
readonly JOB_SHARE=20

say() {
    printf '%s: %s\n' "$label" "$1" >&2
}

readonly crate=$root/crates/$main
readonly program=$crate/out/$main
# Its time is that of the start of the last build that went through.
readonly stamp=$crate/out/launcher.stamp
readonly log=$crate/out/launcher.log
# How many seconds the last build from nothing took.
readonly seconds=$crate/out/launcher.seconds
# Held by the start that builds, while it builds.
readonly lock=$crate/out/launcher.lock
# A copy of the crates for each library that is proved, and `base`, which these are copied from. `rt` locks the crates below
# the one that it works on until it ends; in copies, two that use one crate don't wait for each other.
readonly rooms=$crate/out/launcher.rooms
readonly base=$rooms/base

# By crate, how many lines it has of code, definitions and proofs.
declare -A lines=()
# By crate, how many processes it gets at most.
declare -A most=()
# By crate, how many lines there are from its own to the program's, by the longest path through crates that use one another.
declare -A ahead=()
# By crate of the repository: waits, runs or done.
declare -A state=()
# By process, the crate that it proves, and how many processes of proofs it was given.
declare -A job=() given=()
# The signal that ended the build, if one did.
interrupted=

# Whether the program is there and nothing that it is built of has changed since.
is_built() {
    [[ -x $program && -e $stamp ]] || return 1
    local name newer places=("$root/crates.txt")
    for name in "${crates[@]}"; do
        places+=("$root/crates/$name"/{src,specs,proofs})
    done
    newer=$(find "${places[@]}" -newer "$stamp" -print -quit 2>/dev/null)
    [[ -z $newer ]]
}

# note TEXT: a line with the time so far in the log, and on standard error if that is a terminal.
note() {
    local line
    printf -v line '%d:%02d %s' $((SECONDS / 60)) $((SECONDS % 60)) "$1"
    printf '%s: %s\n' "$label" "$line" >>"$log"
    if [[ -t 2 ]]; then
        say "$line"
    fi
}

# Counts the lines of each crate, those up to it, and those ahead of it. Each crate waits from then on.
weigh_crates() {
    local at name below read=0
    for name in "${crates[@]}"; do
        state[$name]=waits
        lines[$name]=$(find "$base/crates/$name" -type f -exec cat {} + | wc -l)
        read=$((read + lines[$name]))
        most[$name]=$((lines[$name] * JOB_SHARE / read + 1))
        ahead[$name]=0
    done
    for ((at = ${#crates[@]} - 1; at >= 0; at--)); do
        name=${crates[at]}
        ahead[$name]=$((ahead[$name] + lines[$name]))
        for below in ${uses[$name]}; do
            if [[ -v ahead[$below] ]] && ((ahead[$below] < ahead[$name])); then
                ahead[$below]=${ahead[$name]}
            fi
        done
    done
}

# How many processes of proofs may run at a time, by processors and free memory: one at least.
count_slots() {
    local processors memory
    processors=$(nproc)
    memory=$(awk '/^MemAvailable:/ { print $2 }' /proc/meminfo)
    slots=$((memory / JOB_MEMORY))
    slots=$((slots < processors ? slots : processors))
    slots=$((slots > 1 ? slots : 1))
}

# Whether no library was ever proved here.
is_from_nothing() {
    local name
    for name in "${crates[@]}"; do
        [[ $name == "$main" || ! -e $root/crates/$name/out ]] || return 1
    done
}

# Says how long it will take.
announce() {
    local took="takes $FIRST_BUILD, as README.md has it" before
    if [[ -s $seconds ]]; then
        before=$(<"$seconds")
        took="took $(((before + 30) / 60)) minutes here before"
    fi
    if is_from_nothing; then
        say "proving and building the program, which $took .."
    else
        say "proving and building what isn't yet; all of it $took .."
    fi
}

# Copies the sources as they are, so that what is built is one state of them.
copy_sources() {
    local name part
    mkdir -p "$base/crates" && cp -a "$root/crates.txt" "$base" || return 1
    for name in "${crates[@]}"; do
        mkdir "$base/crates/$name" || return 1
        for part in src specs proofs; do
            if [[ -e $root/crates/$name/$part ]]; then
                cp -a "$root/crates/$name/$part" "$base/crates/$name" || return 1
            fi
        done
    done
}

# Puts back what an earlier start moved into a room and left there, and removes the rooms.
clear_rooms() {
    local room name
    for room in "$rooms"/*/; do
        name=$(basename "$room")
        if [[ -e $room/crates/$name/out && ! -e $root/crates/$name/out ]]; then
            mv "$room/crates/$name/out" "$root/crates/$name/out"
        fi
    done
    rm -rf "$rooms"
}

# follow CRATE: copies what `rt` says into the log, after the crate's name, and notes how many functions are checked.
follow() {
    local line
    while IFS= read -r line; do
        printf '[%s] %s\n' "$1" "$line" >>"$log"
        if [[ $line =~ ^so\ far:\ ([0-9]+)\ of\ ([0-9]+)\ functions\ checked$ ]]; then
            note "$1: ${BASH_REMATCH[1]} of ${BASH_REMATCH[2]} functions"
        fi
    done
}

# run_rt CRATE FOLDER WORDS..: runs `rt WORDS..` in the folder.
run_rt() {
    local name=$1 folder=$2
    shift 2
    (cd "$folder" && exec rt "$@") 2>&1 </dev/null | follow "$name" 2>&3
    return "${PIPESTATUS[0]}"
}

# prove_library CRATE JOBS: proves and builds the library in its room, with what is kept of it. Meanwhile its folder is locked, as
# `rt` locks it.
prove_library() {
    local room=$rooms/$1/crates/$1 home=$root/crates/$1 held status
    exec {held}<"$home" || return 1
    flock -n "$held" || { note "$1: waiting for another rt to finish" 2>&3 && flock "$held"; } || return 1
    if [[ -e $home/out ]]; then
        mv "$home/out" "$room" || return 1
    fi
    run_rt "$1" "$room" lib --jobs "$2"
    status=$?
    if [[ -e $room/out ]]; then
        mv "$room/out" "$home" || return 1
    fi
    return "$status"
}

# prove CRATE JOBS: what a process of its own does for a crate. A signal ends `rt` and not this process, which then tidies up. `rt run`
# also runs the program, so it is given words that it answers with status 0.
prove() {
    set +m
    trap : INT TERM HUP
    # Its notes go to standard error, also under a terminal that stops what writes from the background, and bash's own words to the log.
    trap '' TTOU
    exec 3>&2 2>>"$log"
    if [[ $1 == "$main" ]]; then
        run_rt "$1" "$crate" run --jobs "$2" -- "${answered[@]}"
    else
        prove_library "$1" "$2"
    fi
}

# furnish CRATE: makes the crate's room, which has those that are done and the crate itself.
furnish() {
    local name
    mkdir -p "$rooms/$1/crates" || return 1
    for name in "${crates[@]}"; do
        if [[ ${state[$name]} == done || $name == "$1" ]]; then
            link "$base/crates/$name" "$rooms/$1/crates/$name" || return 1
            grep "^$name[: ]" "$base/crates.txt" >>"$rooms/$1/crates.txt"
        fi
    done
}

# start CRATE JOBS: begins to prove the crate, in a process group of its own.
start() {
    state[$1]=runs
    if [[ $1 != "$main" ]]; then
        furnish "$1" || return 1
    fi
    note "$1 .."
    set -m
    prove "$1" "$2" &
    set +m
    job[$!]=$1
    given[$!]=$2
}

# Whether the crate waits, and each one that it names is done.
is_ready() {
    local below
    [[ ${state[$1]} == waits ]] || return 1
    for below in ${uses[$1]}; do
        [[ ${state[$below]-done} == done ]] || return 1
    done
}

# Starts crates that are ready, as many as there are slots, first those with most ahead. Each gets one slot, and the first one also
# gets all that are left, up to its most: a process more costs its start, and the time of the whole is that of the longest way. A crate
# that runs alone gets all slots, since the whole waits for it.
start_ready() {
    local name process free=$slots ready=() jobs
    for process in "${!job[@]}"; do
        free=$((free - given[$process]))
    done
    for name in "${crates[@]}"; do
        if is_ready "$name"; then
            ready+=("${ahead[$name]} $name")
        fi
    done
    ((${#ready[@]} > 0 && free > 0)) || return 0
    mapfile -t ready < <(printf '%s\n' "${ready[@]}" | sort -rn | head -n "$free")
    if ((${#ready[@]} == 1 && ${#job[@]} == 0)); then
        start "${ready[0]#* }" "$free"
        return
    fi
    jobs=$((free - ${#ready[@]} + 1))
    for name in "${ready[@]#* }"; do
        start "$name" $((jobs < most[$name] ? jobs : most[$name])) || return 1
        jobs=1
    done
}

# finish CRATE: what is done once a crate is proved. The crates above find its library in their rooms.
finish() {
    state[$1]=done
    finished=$((finished + 1))
    note "$1 is proved, $finished of ${#crates[@]} crates"
    if [[ $1 != "$main" ]]; then
        mkdir "$base/crates/$1/out" && link "$root/crates/$1/out/rlib" "$base/crates/$1/out/rlib"
    fi
}

# Proves and builds the crates, side by side if they don't need one another. If one fails, `failed` is its name.
prove_all() {
    local ended status name
    while ((finished < ${#crates[@]})); do
        start_ready && [[ -z $interrupted ]] || return 1
        ended=
        wait -n -p ended
        status=$?
        [[ -z $interrupted && ( -n ${ended-} || $status -ne 127 ) ]] || return 1
        # A stop by Ctrl-Z ends the wait, too.
        [[ -n ${ended-} ]] || continue
        name=${job[$ended]}
        unset "job[$ended]"
        if ((status != 0)); then
            failed=$name
            return 1
        fi
        finish "$name" || return 1
    done
}

# signal_jobs SIGNAL: sends it to all that runs for the crates that are being proved.
signal_jobs() {
    local process
    for process in "${!job[@]}"; do
        kill "-$1" -- "-$process" 2>/dev/null
    done
}

# Ends what still runs.
stop_jobs() {
    trap '' INT TERM HUP
    signal_jobs TERM
    wait
    trap - INT TERM HUP
}

# Stops with the terminal's Ctrl-Z, together with what runs, and goes on with it.
pause() {
    signal_jobs TSTP
    kill -STOP $$
    signal_jobs CONT
}

# A signal ends what runs, and with it the build.
catch_signals() {
    local signal
    for signal in INT TERM HUP; do
        trap "interrupted=$signal; signal_jobs TERM" "$signal"
    done
    trap pause TSTP
}

# Says why there is no program, with the last lines of the log, or those of the crate that failed.
tell_failure() {
    if [[ -n $failed ]]; then
        grep -F "[$failed] " "$log" | tail -n 20 >&2
    else
        tail -n 20 "$log" >&2
    fi
    if [[ -n $interrupted ]]; then
        say "cannot build the program: the build was interrupted ($interrupted)"
    else
        say "cannot build the program: ${failed:+$failed: }a proof or the build failed; all that was written is in crates/$main/out/launcher.log"
    fi
}

# Builds the program, and stamps what was built.
build() {
    local from_nothing= status=1 failed= finished=0 slots
    SECONDS=0
    is_from_nothing && from_nothing=yes
    if ! { touch "$stamp.new" && : >"$log" && copy_sources; }; then
        say "cannot build the program: cannot write in crates/$main/out"
        return 1
    fi
    weigh_crates
    count_slots
    announce
    catch_signals
    if prove_all && [[ -x $program ]]; then
        mv -f "$stamp.new" "$stamp"
        [[ -z $from_nothing ]] || printf '%s\n' "$SECONDS" >"$seconds"
        status=0
    fi
    stop_jobs
    trap - TSTP
    rm -f "$stamp.new"
    ((status == 0)) || tell_failure
    clear_rooms
    return "$status"
}

# Builds the program if no other start has built it meanwhile.
build_once() {
    local held status
    if ! command -v rt >/dev/null; then
        say "cannot build the program: no command rt in PATH"
        return 1
    fi
    if ! { mkdir -p "$crate/out" && exec {held}>>"$lock"; }; then
        say "cannot build the program: cannot write in crates/$main/out"
        return 1
    fi
    flock -n "$held" || { say "another start is building the program; waiting for it .." && flock "$held"; } || return 1
    clear_rooms
    is_built || build
    status=$?
    exec {held}>&-
    return "$status"
}

read_crates
add_crate "$main"
is_built || build_once || exit "$NOT_BUILT"
exec "$program" "$@"
