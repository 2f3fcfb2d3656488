# shellcheck shell=sh
# Help for the tools in sh: where the first word is --help, the head of the tool that sources this is printed, and it ends.
if [ "${1:-}" = --help ]; then
    awk 'NR > 1 { if (!/^#/) exit; sub(/^# ?/, ""); print }' "$0"
    exit 0
fi
