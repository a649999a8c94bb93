#!/bin/bash
# One task of an array: works on the folder seed-INDEX until it is done or the job's time is nearly over, and
# then has the task begin again behind the others. `start` in this folder submits it.
#SBATCH --job-name=glass
#SBATCH --time=24:00:00
#SBATCH --signal=B:USR1@1800
#SBATCH --requeue
#SBATCH --open-mode=append
#SBATCH --output=task-%a.log
set -u
# Not $SLURM_JOB_ID: that of one task names the whole array.
self=${SLURM_ARRAY_JOB_ID}_${SLURM_ARRAY_TASK_ID}
folder=$(printf 'seed-%04d' "$SLURM_ARRAY_TASK_ID")
cancelled='' driver=''
trap '[ -z "$driver" ] || kill -USR1 "$driver"' USR1
trap 'cancelled=yes; [ -z "$driver" ] || kill -TERM "$driver"' TERM
# A part is shorter than the time between the warning and the end of the job.
"${LONG_RUN:?is set by start}" run "$folder" --job "$self" --lock-wait 300 --part-time "${PART_TIME:-15}" \
    --workers "${SLURM_CPUS_PER_TASK:-1}" ${GLASS_COMMAND:+--command "$GLASS_COMMAND"} &
driver=$!
# Bash runs a trap only between commands, and a signal ends `wait`; the last one gives the driver's status.
while kill -0 "$driver" 2>/dev/null; do wait "$driver"; done
wait "$driver"
status=$?
# 75: stopped by the warning; 73: another task still has the folder, as after a node was lost. A task that was
# cancelled, or whose folder has the file `stop`, stays ended.
if { [ "$status" = 73 ] || [ "$status" = 75 ]; } && [ -z "$cancelled" ] && [ ! -e "$folder/stop" ]; then
    scontrol requeue "$self" && exit 0
fi
exit "$status"
