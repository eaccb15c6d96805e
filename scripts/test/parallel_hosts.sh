#!/usr/bin/env bash
# Spreads lines by GNU parallel over cores and over three hosts, one of which dies: parallel_hosts.sh [FOLDER], where
# the programs are. What cannot be had here, or not in time, is 'skipped'.
self='parallel hosts'
. "$(dirname "$0")/../common.sh"
shopt -s inherit_errexit
if [ -z "$inside" ]; then
    parallel --version 2>/dev/null | grep -q '^GNU parallel' || skips 'no GNU parallel'
    programs=()
    for name in linkwire linkshow linkstate; do
        it=$(program "$name" "$@")
        [ -z "$it" ] || programs+=("$it")
    done
    [ "${#programs[@]}" != 0 ] || skips 'no program is built'
    python3 "$top/bench/make_lines.py" "$folder/lines" $((9 * $(nproc)))
    # over all cores, a block for each and more
    for it in "${programs[@]}"; do
        "$it" <"$folder/lines" >"$folder/one"
        [ "$(wc -l <"$folder/one")" = "$(wc -l <"$folder/lines")" ]
        parallel --pipe --keep-order --block 8M --joblog "$folder/jobs" "$it" <"$folder/lines" 2>"$folder/err" |
            cmp "$folder/one" -
        parallel --pipepart -a "$folder/lines" --keep-order --block 8M "$it" 2>"$folder/err" | cmp "$folder/one" -
        echo "parallel hosts: ${it##*/}: the same bytes from $(nproc) cores in $(sed 1d "$folder/jobs" | wc -l) blocks"
    done
    needs ip unshare ssh ssh-keygen timeout
    sshd=$(PATH=$PATH:/usr/sbin:/usr/local/sbin command -v sshd) || skips 'no sshd'
    unshare -mn true 2>/dev/null || skips 'no right to make a namespace'
    goes_inside "$sshd" "${programs[@]}"
fi
sshd=$1 running=()

# serves NUMBER: starts the host's sshd, which listens a moment later; what runs there ends with `host`
serves() {
    unshare --pid --fork --kill-child "$sshd" -D -f "$folder/sshd_config" -o "ListenAddress=127.77.0.$1" -E "$log" &
    host=$! running+=("$!")
    disown
    waits 10 ssh -F "$folder/ssh_config" "127.77.0.$1" true 2>"$folder/err" ||
        skips "no ssh to a host: $(cat "$folder/err")"
}

mount -t tmpfs tmpfs /run 2>/dev/null || skips 'no right to mount'
mkdir /run/sshd
trap 'kill -9 "${running[@]}" 2>/dev/null || true' EXIT
ssh-keygen -q -t ed25519 -N '' -f "$folder/key"
# a shell there reads no file of the user's: one that is killed may hold a lock of theirs
printf '%s\n' 'Port 2222' "HostKey $folder/key" 'PidFile none' "AuthorizedKeysFile $folder/key.pub" \
    'StrictModes no' 'UsePAM no' 'MaxStartups 100' 'PermitRootLogin prohibit-password' "SetEnv HOME=$folder" \
    >"$folder/sshd_config"
printf '%s\n' 'Port 2222' 'BatchMode yes' "IdentityFile $folder/key" 'IdentitiesOnly yes' 'LogLevel ERROR' \
    'StrictHostKeyChecking no' 'UserKnownHostsFile /dev/null' >"$folder/ssh_config"
printf '2/127.77.0.%s\n' 1 2 3 >"$folder/hosts"
serves 1
serves 2
python3 "$top/bench/make_lines.py" "$folder/eight" 8
for it in {1..10}; do
    cat "$folder/eight"
done >"$folder/lines"
for program in "${@:2}"; do
    serves 3
    # On the third host the first job ends, and those after it stop halfway; the other hosts wait for that, so the third
    # has its two jobs however fast they all are. Each job reads its whole block first, since parallel feeds one after
    # the other and looks at nothing else meanwhile.
    rm -rf "$folder/halfway" "$folder/first" "$folder/ended" "$folder"/block.*
    cat >"$folder/answer" <<END
block=\$(mktemp $folder/block.XXXXXX)
cat >\$block
case \$SSH_CONNECTION in
*' 127.77.0.3 '*)
    if mkdir $folder/first 2>/dev/null; then
        $program <\$block
        touch $folder/ended
        exit
    fi
    while [ ! -e $folder/ended ]; do sleep 0.1; done
    $program <\$block | head -c 1000000
    touch $folder/halfway
    sleep 600
    ;;
*)
    while [ ! -e $folder/halfway ]; do sleep 0.1; done
    $program <\$block
    ;;
esac
END
    # all that runs there is killed when it has ended a job and is in the middle of another
    (waits 120 test -e "$folder/halfway" && sleep 1 && kill -9 "$host") &
    killer=$! status=0 running+=("$!")
    PARALLEL_SSH="ssh -F $folder/ssh_config" PARALLEL_HOME=$folder timeout 150 parallel --will-cite --pipe \
        --keep-order --block 4M --retries 3 --sshloginfile "$folder/hosts" --joblog "$folder/jobs" sh "$folder/answer" \
        <"$folder/lines" >"$folder/spread" 2>"$folder/err" || status=$?
    [ "$status" != 124 ] || skips "parallel does not end in time: $(cat "$folder/err")"
    [ "$status" = 0 ] || fails "${program##*/}: parallel ends with status $status"
    wait "$killer" || skips 'the third host had no job in the middle of its answers'
    "$program" <"$folder/lines" >"$folder/one"
    cmp "$folder/one" "$folder/spread" || fails "${program##*/}: other bytes"
    echo "parallel hosts: ${program##*/}: the same $(wc -l <"$folder/spread") lines in $(grep -c 127.77 \
        "$folder/jobs") blocks, $(grep -c 127.77.0.3 "$folder/jobs") of them from the host that is killed"
done
