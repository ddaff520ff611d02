#!/usr/bin/env bash
# lrc.sh LRC run|step [OPTION..]: this memory as an adapter: runs the script on standard input, and prints its journal as a trace.
#
#     tools/torture examples/adapters/lrc.sh crates/lrc/out/lrc run
#
# With `step` a seed draws the order of turns, another one for each script.
set -euo pipefail
lrc=$1 command=$2
shift 2
script=$(cat)
if [[ $command == step ]]; then set -- --seed "$(cksum <<< "$script" | cut -d ' ' -f 1)" "$@"; fi
printf '%s\n' "${script%%$'\n'*}"
"$lrc" "$command" --journal "$@" <<< "$script" | grep '^event '
