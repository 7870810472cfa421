#!/usr/bin/env bash
# Feeds the records of a journal to a log that others read, as Kafka, while a server writes the journal:
#
#   packaging/feed-log.sh JOURNAL COUNT COMMAND..
#   packaging/feed-log.sh day.journal 0 kcat -P -b broker:9092 -t day
#
# COUNT: how many records the log has already; 0 for a new one. COMMAND is run again and again, with records that are new on
# its standard input, a line of 256 hexadecimal digits each, in their order. A record that is not whole yet is never given: a
# server that is started anew may cut it off. Where COMMAND fails this ends with its status; nothing of that piece counts as
# given, so that it may come twice: its first 24 digits are the mark and the record's number, by which a reader leaves out
# what it has.
set -euo pipefail
journal=$1
count=$2
shift 2
while true; do
  records=$(($(stat -c %s "$journal") / 128 - 1))
  if [ "$records" -gt "$count" ]; then
    dd if="$journal" bs=128 skip=$((count + 1)) count=$((records - count)) status=none | xxd -p -c 128 | "$@"
    count=$records
  fi
  sleep 0.1
done
