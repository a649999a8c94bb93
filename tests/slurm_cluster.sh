#!/bin/sh
# A Slurm for tests: one machine as two nodes, kept wholly in a folder, on loopback alone. Needs root.
#
#     tests/slurm_cluster.sh start FOLDER [CPUS]
#     tests/slurm_cluster.sh node FOLDER NAME      begins one node's daemon again
#     tests/slurm_cluster.sh stop FOLDER           cancels the jobs, and ends the daemons that `start` began there
#
# No file in /etc is used: clients find the cluster by SLURM_CONF=FOLDER/slurm.conf.
set -eu

free_port() {
    python3 -c 'import socket; s = socket.socket(); s.bind(("127.0.0.1", 0)); print(s.getsockname()[1])'
}

write_conf() {
    only_loopback=
    case $(getent ahostsv4 "$(hostname)" | head -n 1) in # the daemons bind what the host's name means
    127.*) only_loopback=CommunicationParameters=NoInAddrAny,NoCtldInAddrAny ;;
    *) echo "slurm: the host's name is not a loopback address; the ports will be open to all" >&2 ;;
    esac
    cat >"$dir/slurm.conf" <<CONF
ClusterName=test
SlurmctldHost=localhost(127.0.0.1)
SlurmctldPort=$(free_port)
$only_loopback
AuthType=auth/munge
AuthInfo=socket=$dir/run/munge.socket,cred_expire=5
SlurmUser=root
SlurmdUser=root
StateSaveLocation=$dir/state
SlurmdSpoolDir=$dir/spool/%n
SlurmctldPidFile=$dir/run/slurmctld.pid
SlurmdPidFile=$dir/run/slurmd-%n.pid
SlurmctldLogFile=$dir/log/slurmctld.log
SlurmdLogFile=$dir/log/slurmd-%n.log
ProctrackType=proctrack/linuxproc
TaskPlugin=task/none
JobAcctGatherType=jobacct_gather/none
AccountingStorageType=accounting_storage/none
JobCompType=jobcomp/filetxt
JobCompLoc=$dir/log/jobs.txt
MpiDefault=none
MailProg=/bin/true
SelectType=select/cons_tres
SelectTypeParameters=CR_Core
SchedulerParameters=batch_sched_delay=0,sched_min_interval=0,sched_interval=2,bf_interval=2
SlurmdParameters=config_overrides
ReturnToService=2
SlurmdTimeout=10
KillWait=5
MinJobAge=3600
NodeName=node1 NodeHostname=$(hostname -s) NodeAddr=127.0.0.1 Port=$(free_port) CPUs=$cpus
NodeName=node2 NodeHostname=$(hostname -s) NodeAddr=127.0.0.1 Port=$(free_port) CPUs=$cpus
PartitionName=main Nodes=node1,node2 Default=YES MaxTime=INFINITE
CONF
}

start() {
    mkdir -p "$1/state" "$1/spool" "$1/log" "$1/run"
    chmod a+x "$1" "$1/run" # munged insists, for every folder above its socket
    dir=$(cd "$1" && pwd -P)
    [ "${#dir}" -le 80 ] || { echo "slurm: the path is too long for a socket: $dir" >&2; exit 1; }
    [ -f "$dir/munge.key" ] || (umask 077; head -c 128 /dev/urandom >"$dir/munge.key")
    write_conf
    munged --key-file="$dir/munge.key" --socket="$dir/run/munge.socket" --pid-file="$dir/run/munged.pid" \
        --log-file="$dir/log/munged.log" --seed-file="$dir/run/munged.seed"
    slurmctld -f "$dir/slurm.conf"
    slurmd -f "$dir/slurm.conf" -N node1
    slurmd -f "$dir/slurm.conf" -N node2
    export SLURM_CONF="$dir/slurm.conf"
    for _ in $(seq 100); do
        [ "$(timeout 2 sinfo -h -N -t idle -o %n 2>/dev/null | wc -l)" = 2 ] && exit 0
        sleep 0.1
    done
    echo "slurm: the nodes do not come up; see $dir/log" >&2
    exit 1
}

end() { # NAME: by its pid file, and only where that process still bears the name
    for file in "$dir/run/$1"*.pid; do
        [ -s "$file" ] || continue
        pid=$(cat "$file")
        [ "$(cat "/proc/$pid/comm" 2>/dev/null)" = "$1" ] || { rm -f "$file"; continue; }
        kill "$pid"
        for _ in $(seq 200); do kill -0 "$pid" 2>/dev/null || break; sleep 0.1; done
        ! kill -0 "$pid" 2>/dev/null || { echo "slurm: $1 ($pid) does not end" >&2; return 1; }
    done
    return 0
}

stop() {
    dir=$(cd "$1" && pwd -P)
    export SLURM_CONF="$dir/slurm.conf"
    if [ -s "$dir/run/slurmctld.pid" ]; then
        for node in node1 node2; do # a lost node's jobs end once its daemon is back
            [ "$(cat "/proc/$(cat "$dir/run/slurmd-$node.pid")/comm" 2>/dev/null)" = slurmd ] ||
                slurmd -f "$dir/slurm.conf" -N "$node"
        done
        timeout 5 squeue -h -o %A 2>/dev/null | sort -u | xargs -r scancel 2>/dev/null || true
        for _ in $(seq 100); do [ -z "$(timeout 5 squeue -h 2>/dev/null)" ] && break; sleep 0.2; done
        timeout 5 scontrol shutdown 2>/dev/null || true
        sleep 0.3
    fi
    end slurmctld && end slurmd && end munged
    for at in /proc/[0-9]*; do # the steps of jobs work in the folder of the logs
        case $(readlink "$at/cwd" 2>/dev/null) in "$dir"/*)
            echo "slurm: ends $(tr '\0' ' ' <"$at/cmdline")(${at#/proc/})" >&2
            kill -9 "${at#/proc/}"
            ;;
        esac
    done
}

case ${1:-} in
start) cpus=${3:-4}; start "$2" ;;
node) slurmd -f "$2/slurm.conf" -N "$3" ;;
stop) stop "$2" ;;
*) sed -n '2,8s/^# \{0,1\}//p' "$0"; exit 2 ;;
esac
