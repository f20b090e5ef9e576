#!/usr/bin/env bash
#SBATCH --job-name=fleet
#SBATCH --array=0-62
#SBATCH --ntasks=1
#SBATCH --cpus-per-task=4
#SBATCH --time=00:05:00
# An array job that runs a fleet of 1,000 boards under a batch scheduler, here Slurm. Task n runs the boards 16 n to 16 n + 15 as one station, and leaves its
# text in the folder under the number of the first of them; examples/fleet/join joins what all tasks left. Submit it at the top of the repository, with a folder
# that each host sees and ink_board on the path; of N boards there are (N + 15) / 16 tasks:
#
#     examples/fleet/make FOLDER
#     sbatch --wait --array=0-62 examples/fleet/array.sbatch FOLDER
#     examples/fleet/join FOLDER
set -u -o pipefail
folder=$1
first=$((16 * SLURM_ARRAY_TASK_ID))
jobs=()
for number in $(seq -f %05g "$first" $((first + 15))); do
  if [ -f "$folder/$number.job" ]; then jobs+=("$folder/$number.job"); fi
done
examples/fleet/pack "${jobs[@]}" | ink_board station >"$folder/$(printf %05d "$first").out"
