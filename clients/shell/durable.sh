#!/bin/sh
# durable.sh LOG: a cqlrun that keeps its requests in LOG, and begins with those that are there.
#
# Replies to new requests are shown, those to old ones are not. A last line that was torn is ended
# first. A kill can take the last lines: then they were shown as answered, and are not in LOG.
touch "$1"; [ -z "$(tail -c 1 "$1")" ] || echo >> "$1"
old=$(grep -c '[^[:space:]]' "$1")
{ cat "$1"; tee -a "$1"; } | "${CQLRUN:-cqlrun}" | stdbuf -oL tail -n +$((old + 1))
