#!/usr/bin/env bash
# hosts.sh FOLDER COMMAND..: runs the command, which may reach two hosts as `ssh -F FOLDER/hosts one`
# and `.. two`. Each is a network namespace with sshd. When FOLDER/kill-two appears, the host two is
# killed. Run it by `unshare --net --mount --pid --fork --kill-child`.
set -eu
folder=$1
mount -t proc proc /proc
mount -t tmpfs none /run
mkdir -p /run/sshd /run/netns
ssh-keygen -q -t ed25519 -N '' -f "$folder/key"
ip link set lo up
number=0
for host in one two; do
    number=$((number + 1))
    ip netns add "$host"
    ip link add "to-$host" type veth peer name eth0 netns "$host"
    ip address add "10.77.$number.1/30" dev "to-$host"
    ip link set "to-$host" up
    ip -n "$host" address add "10.77.$number.2/30" dev eth0
    ip -n "$host" link set eth0 up
    printf '%s\n' "ListenAddress 10.77.$number.2" "HostKey $folder/key" "SetEnv HOST=$host" \
        "AuthorizedKeysFile $folder/key.pub" 'StrictModes no' 'UsePAM no' 'PidFile none' \
        >"$folder/$host.sshd"
    printf '%s\n' "Host $host" "HostName 10.77.$number.2" 'User root' "IdentityFile $folder/key" \
        "UserKnownHostsFile $folder/known" 'StrictHostKeyChecking no' 'LogLevel ERROR' \
        'ConnectTimeout 5' 'ServerAliveInterval 5' >>"$folder/hosts"
    ip netns exec "$host" unshare --pid --fork --kill-child \
        "$(command -v sshd || echo /usr/sbin/sshd)" -D -e -f "$folder/$host.sshd" \
        2>"$folder/$host.log" &
    two=$!
done
for host in one two; do
    for _ in {1..600}; do
        ssh -F "$folder/hosts" "$host" true 2>"$folder/ssh.log" </dev/null && break
        sleep 0.1
    done
    ssh -F "$folder/hosts" "$host" true </dev/null
done
(
    until [[ -e $folder/kill-two ]]; do sleep 0.1; done
    kill -9 "$two"
) &
"${@:2}"
