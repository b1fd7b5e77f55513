#!/bin/sh
# tail_log.sh LOG OUT: answers a log for as long as it runs. After a kill, start it again.
#
# Producers append whole lines to LOG. Each reply goes to OUT as a line, so the number of lines of
# OUT says how far LOG was answered. A second one waits until the first has gone.
exec 9>> "$2"; flock 9; touch "$1"
[ -z "$(tail -c 1 "$2")" ] || truncate -s "-$(tail -n 1 "$2" | wc -c)" "$2" # a reply that was cut
tail -n +1 -f "$1" | "${CQLRUN:-cqlrun}" | stdbuf -oL tail -n +$(($(wc -l < "$2") + 1)) >> "$2"
