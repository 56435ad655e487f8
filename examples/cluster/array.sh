#!/usr/bin/env bash
#SBATCH --job-name=mg
#SBATCH --cpus-per-task=1
#SBATCH --mem=400M
#SBATCH --output=%x-%A.log
#SBATCH --open-mode=append
# Runs a graph over the recordings of a folder, as an array of Slurm's whose numbers begin at 0:
#
#     sbatch --array=0-199 array.sh PROGRAM RECORDINGS OUT GRAPH SUBGRAPH...
#
# Of each recording NAME.jsonl the output is OUT/NAME.jsonl, with the notes in OUT/NAME.notes and another status than 0 in OUT/NAME.status.
# Where there are more recordings than tasks, a task takes each one that many further. Its status is the highest of its runs.
program=$1 recordings=$2 out=$3
shift 3
files=("$recordings"/*.jsonl)
highest=0
for ((at = SLURM_ARRAY_TASK_ID; at < ${#files[@]}; at += SLURM_ARRAY_TASK_COUNT)); do
    name=$out/$(basename "${files[at]}" .jsonl)
    rm -f "$name".{jsonl,notes,status}
    "$program" run "$@" <"${files[at]}" >"$name.part" 2>"$name.notes"
    status=$?
    [ -s "$name.notes" ] || rm "$name.notes"
    [ "$status" = 0 ] || echo "$status" >"$name.status"
    # The output has its name when all of it is there, so a task that was ended leaves none.
    mv "$name.part" "$name.jsonl"
    [ "$status" -le "$highest" ] || highest=$status
done
exit "$highest"
