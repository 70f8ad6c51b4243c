#!/usr/bin/env bash
# Collects the evidence of a run from a Kafka cluster by Kafka's own tools, and checks it: what docs/EVIDENCE.md tells step by step.
#
#     tools/collect.sh --bootstrap HOST:PORT --app GROUP:SOURCES:OUTPUTS --logs ID=PLACE .. FOLDER
#     tools/collect.sh --configure --bootstrap HOST:PORT
#
# It was tried with stand-ins of Kafka's tools (tests/collect.py), which print what those of Kafka 4 print, from memory; not on a
# cluster. It is written for bash from 3.2 on. Its messages and steps go to standard error, the verdict to standard output.
set -u

usage() {
  cat <<'END'
Collects the evidence of a run from a Kafka cluster at rest, and checks it.

    collect.sh --bootstrap HOST:PORT --app GROUP:SOURCES:OUTPUTS \
      --logs ID=PLACE .. FOLDER

Before the run, on a fresh cluster, and again at once after its first
transaction:

    collect.sh --configure --bootstrap HOST:PORT

What it asks and copies
  --bootstrap HOST:PORT  the bootstrap server, as Kafka's tools take it
  --app GROUP:SOURCES:OUTPUTS
                         an application, as `eoscheck init` takes it: its
                         group, the topics that it reads and those that it
                         writes, with commas; once for each. Without any,
                         logs, sequences, fencing and transactions are judged
  --logs ID=PLACE        where the log directory (log.dirs) of broker ID lies:
                         a path, or HOST:PATH, which ssh reaches without a
                         password; once for each directory of each broker
  FOLDER                 where the evidence goes; it must not be there

How
  --kafka DIR            the folder of Kafka's tools (bin); else they are
                         looked for on the path, with `.sh` and without
  --command-config FILE  settings for a secured cluster, for each tool
  --with scp|rsync       what copies from HOST:PATH; scp if left out
  --wait SECONDS         waits up to so long until groups and transactions
                         rest; a session may end 45 s after its member went
  --eoscheck PROGRAM     the checker; else the one beside this script, or on
                         the path
  --dry-run              looks at the cluster, prints what it would copy or
                         change, and does neither
  --configure            changes the cluster, which nothing else here does:
                         the feature transaction.version=2, and neither
                         compaction nor retention for the two internal
                         topics. Then it ends
  --help                 this text

Two applications in a chain, on three brokers:

    collect.sh --bootstrap b1:9092 --logs 1=b1:/var/lib/kafka \
      --logs 2=b2:/var/lib/kafka --logs 3=b3:/var/lib/kafka \
      --app billing:orders:bills --app mail:bills:mails run-7

docs/EVIDENCE.md says why each step is there. What isn't right is refused in
one line, which says what to do, with status 2, and no folder is left. Else
the last line and the status are those of `eoscheck check FOLDER`.
END
}

here=$(cd "$(dirname "$0")" && pwd) || exit 2
internal=(__consumer_offsets __transaction_state)
kept='cleanup.policy=delete,retention.ms=-1,retention.bytes=-1'
bootstrap='' kafka='' settings='' with=scp wait=0 program='' folder='' is_dry='' is_configuring=''
apps=() places=() scratch='' room='' part='' why=''

say() { printf 'collect: %s\n' "$*" >&2; }
refuse() {
  say "$*"
  exit 2
}

clear_up() {
  [ -z "$scratch" ] || rm -rf "$scratch"
  [ -z "$room" ] || rm -rf "$room"
}

# ---- the words

read_words() {
  while [ $# -gt 0 ]; do
    case $1 in
      --help | -h) usage; exit 0 ;;
      --dry-run) is_dry=yes ;;
      --configure) is_configuring=yes ;;
      --bootstrap | --app | --logs | --kafka | --command-config | --with | --wait | --eoscheck)
        [ $# -gt 1 ] || refuse "$1 wants a word after it: see --help"
        read_option "$1" "$2"
        shift ;;
      -*) refuse "no option $1 is known: see --help" ;;
      *)
        [ -z "$folder" ] || refuse "one folder is wanted, not both $folder and $1: see --help"
        folder=$1 ;;
    esac
    shift
  done
}

read_option() {
  case $1 in
    --bootstrap) bootstrap=$2 ;;
    --app)
      case $2 in
        ?*:?*:?*) apps[${#apps[@]}]=$2 ;;
        *) refuse "--app $2 isn't GROUP:SOURCE,..:OUTPUT,.." ;;
      esac ;;
    --logs)
      case ${2%%=*}:$2 in
        *[!0-9]*:*=?* | :* | *:*=) refuse "--logs $2 isn't ID=PATH or ID=HOST:PATH, with a broker's number as ID" ;;
        *:*=*) places[${#places[@]}]=$2 ;;
        *) refuse "--logs $2 isn't ID=PATH or ID=HOST:PATH, with a broker's number as ID" ;;
      esac ;;
    --kafka) kafka=$2 ;;
    --command-config) settings=$2 ;;
    --with) with=$2 ;;
    --wait) wait=$2 ;;
    --eoscheck) program=$2 ;;
  esac
}

check_words() {
  [ -n "$bootstrap" ] || refuse 'no bootstrap server is given: --bootstrap HOST:PORT (--help says more)'
  case $with in scp | rsync) ;; *) refuse "--with $with is neither scp nor rsync" ;; esac
  case $wait in '' | *[!0-9]*) refuse "--wait $wait isn't a number of seconds" ;; esac
  [ -z "$settings" ] || [ -r "$settings" ] || refuse "--command-config $settings can't be read: give the file with the cluster's settings"
  [ -z "$is_configuring" ] || return 0
  [ -n "$folder" ] || refuse 'no folder is given, where the evidence goes (--help says more)'
  if [ -e "$folder" ] || [ -L "$folder" ]; then refuse "$folder is there already: give another folder, or move this one away"; fi
  [ -d "$(dirname "$folder")" ] || refuse "$(dirname "$folder") is no folder: make it, or give another place"
  [ ${#places[@]} -gt 0 ] || refuse "no broker's log directory is given: --logs ID=PATH or --logs ID=HOST:PATH"
}

# Sets `found` to Kafka's tool of this name.
find_tool() {
  local name
  for name in "$1.sh" "$1"; do
    if [ -n "$kafka" ]; then found=$kafka/$name; else found=$(command -v "$name") || continue; fi
    [ ! -x "$found" ] || return 0
  done
  if [ -n "$kafka" ]; then refuse "no tool $1.sh in $kafka: give the folder bin of a Kafka 4 by --kafka"; fi
  refuse "no tool $1.sh on the path: give the folder bin of a Kafka 4 by --kafka"
}

find_tools() {
  local name found
  for name in kafka-topics kafka-features kafka-configs kafka-consumer-groups kafka-transactions kafka-get-offsets; do
    find_tool "$name"
  done
  [ -z "$is_configuring" ] || return 0
  case " ${places[*]}" in
    *' '[0-9]*=[!/.]*:*)
      for name in ssh "$with"; do
        command -v "$name" > /dev/null || refuse "no $name here, which HOST:PATH needs: install it, or give paths"
      done ;;
  esac
  if [ -z "$program" ]; then
    if [ -x "$here/../eoscheck" ] && [ ! -d "$here/../eoscheck" ]; then program=$here/../eoscheck; else program=eoscheck; fi
  fi
  command -v "$program" > /dev/null || refuse "no program $program: give the checker by --eoscheck"
}

# ---- Kafka's tools

# ask FILE TOOL WORDS: runs a tool of Kafka's, keeps what it prints in FILE, and sets `why` where it fails
ask() {
  local file=$scratch/$1 found
  find_tool "$2"
  shift 2
  # kafka-consumer-groups.sh ends with status 0 after an error too
  if "$found" --bootstrap-server "$bootstrap" ${settings:+--command-config "$settings"} "$@" > "$file" 2> "$scratch/said" < /dev/null &&
    ! grep -q '^Error: ' "$file"; then return 0; fi
  why=$(cat "$file" "$scratch/said" | grep -v '^[[:space:]]*$' | tail -n 1)
  return 1
}

# change TOOL WORDS: the same of a call that changes the cluster
change() {
  say "changes: $1.sh --bootstrap-server $bootstrap ${*:2}"
  [ -z "$is_dry" ] || return 0
  ask changed "$@" || refuse "$1.sh failed ($why): what was set before stays; mend that, and call this again"
}

# The version of transactions that the cluster has, in `version`.
look_at_features() {
  say 'looks at the feature transaction.version (kafka-features.sh describe)'
  ask features kafka-features describe || refuse "kafka-features.sh failed ($why): it is a tool of Kafka 4, and wants the right to describe the cluster"
  version=$(awk '/^Feature: transaction.version[[:space:]]/ { for (i = 1; i < NF; i++) if ($i == "FinalizedVersionLevel:") print $(i + 1) }' "$scratch/features")
  version=${version:-0}
}

# look_at_topics: partitions as lines 'TOPIC NUMBER LEADER REPLICAS IN-SYNC', in the file partitions
look_at_topics() {
  say "looks at topics, leaders and replicas (kafka-topics.sh --describe)"
  ask topics kafka-topics --describe || refuse "$bootstrap doesn't answer ($why): look at the address, and at --command-config"
  awk '
    function after(key,   i) {
      for (i = 1; i < NF; i++) if ($i == key) return $(i + 1) ~ /:$/ ? "" : $(i + 1)
      return ""
    }
    function members(list,   parts) { return list == "" ? 0 : split(list, parts, ",") }
    after("Partition:") != "" {
      print after("Topic:"), after("Partition:"), after("Leader:") == "" ? "none" : after("Leader:"), members(after("Replicas:")), members(after("Isr:"))
    }' "$scratch/topics" > "$scratch/partitions"
}

has_topic() { awk -v topic="$1" '$1 == topic { found = 1 } END { exit !found }' "$scratch/partitions"; }

# The topics that are copied: the two internal ones, and those of the applications.
topics() {
  local app rest
  printf '%s\n' "${internal[@]}"
  for app in ${apps[@]+"${apps[@]}"}; do
    rest=${app%:*}
    printf '%s,%s\n' "${rest##*:}" "${app##*:}"
  done | tr ',' '\n' | sort -u
}

# look_at_settings TOPIC: notes settings with which a log doesn't stay whole
look_at_settings() {
  ask settings kafka-configs --describe --all --entity-type topics --entity-name "$1" || refuse "kafka-configs.sh failed for $1 ($why): it wants the right to describe the topic's settings"
  awk -v topic="$1" '
    $1 ~ /^[a-z.]+=/ {
      name = substr($1, 1, index($1, "=") - 1)
      value[name] = substr($1, index($1, "=") + 1)
    }
    function wants(name, good, what) {
      if (name in value && value[name] !~ good) printf "note: %s has %s=%s: %s\n", topic, name, value[name], what
    }
    END {
      wants("cleanup.policy", "^delete$", "a compacted log lacks records; set delete before the run")
      wants("retention.ms", "^-1$", "old segments are removed; set -1 before the run")
      wants("retention.bytes", "^-1$", "old segments are removed; set -1 before the run")
      wants("remote.storage.enable", "^false$", "segments lie in other storage too, and are not copied from there")
      wants("compression.type", "^(uncompressed|producer)$", "compressed batches are refused; set uncompressed before the run")
      wants("preallocate", "^false$", "files have zeros at their ends until the broker is stopped cleanly; stop it before copying")
    }' "$scratch/settings" >> "$scratch/notes"
}

# Members of groups that still work, one a line, from what kafka-consumer-groups.sh prints: a header and a line for each group.
# The state is found by its place from the right, and the name ends where the header's COORDINATOR begins.
busy_groups() {
  awk '
    /^GROUP[[:space:]]/ && /[[:space:]]STATE[[:space:]]/ {
      end = index($0, "COORDINATOR")
      for (i = 1; i <= NF; i++) if ($i == "STATE") right = NF - i
      next
    }
    right && NF > right + 1 {
      name = substr($0, 1, end - 1)
      sub(/[[:space:]]+$/, "", name)
      state = $(NF - right)
      if (state != "Empty" && state != "Dead") print name " is " state
    }' "$scratch/groups"
}

# Transactions that are open, one a line: the last three words are the coordinator, the producer and the state.
open_transactions() {
  awk '$NF ~ /^(Ongoing|Prepare)/ {
    state = $NF
    sub(/[[:space:]]+[^[:space:]]+[[:space:]]+[^[:space:]]+[[:space:]]+[^[:space:]]+[[:space:]]*$/, "")
    print $0 " is " state
  }' "$scratch/transactions"
}

# Waits until every group is empty and no transaction is open, as long as --wait says; else refuses the first that isn't.
wait_for_rest() {
  local last=$((SECONDS + wait)) busy
  say 'looks whether groups and transactions rest (kafka-consumer-groups.sh, kafka-transactions.sh)'
  while :; do
    ask groups kafka-consumer-groups --describe --all-groups --state || refuse "kafka-consumer-groups.sh failed ($why): it wants the right to describe groups"
    ask transactions kafka-transactions list || refuse "kafka-transactions.sh failed ($why): it wants the right to describe transactional ids"
    grep -q '^TransactionalId' "$scratch/transactions" || refuse 'kafka-transactions.sh printed no table: another version of it than 3 or 4'
    ! grep -q '[^[:space:]]' "$scratch/groups" || grep -q '^GROUP.*STATE' "$scratch/groups" ||
      refuse 'kafka-consumer-groups.sh printed no table: another version of it than 3 or 4'
    busy=$(busy_groups | head -n 1)
    [ -z "$busy" ] || busy="the group $busy: stop its members, wait 45 s for their sessions to end (--wait 60), and collect again"
    if [ -z "$busy" ]; then
      busy=$(open_transactions | head -n 1)
      [ -z "$busy" ] || busy="the transaction of $busy: stop its producer, wait until it is committed, or aborted by its time-out, and collect again"
    fi
    [ -n "$busy" ] || return 0
    [ $SECONDS -lt $last ] || refuse "$busy"
    sleep 1
  done
}

# Notes the groups of applications that the cluster doesn't know.
note_groups() {
  local app group line known
  for app in ${apps[@]+"${apps[@]}"}; do
    group=${app%:*} group=${group%:*} known=''
    while IFS= read -r line; do case $line in "$group "*) known=yes ;; esac; done < "$scratch/groups"
    [ -n "$known" ] || printf 'note: no group %s is there: look at its name\n' "$group" >> "$scratch/notes"
  done
}

# ask_ends FILE: the ends of all partitions
ask_ends() {
  ask "$1" kafka-get-offsets --time -1 || refuse "kafka-get-offsets.sh failed ($why): look at the brokers, and collect again"
  grep -E '^[A-Za-z0-9._-]+:[0-9]+:[0-9]+$' "$scratch/$1" | sort > "$scratch/$1.sorted"
  mv "$scratch/$1.sorted" "$scratch/$1"
}

# ---- where the logs lie

# Sets `id`, `host` (empty for a path of this machine) and `path` of a word ID=PLACE.
read_place() {
  id=${1%%=*} host='' path=${1#*=}
  case $path in
    [/.]*) ;;
    *:*) host=${path%%:*} path=${path#*:} ;;
  esac
}

# Lists each log directory, once: what stands in it tells which of a broker's directories has a partition.
list_places() {
  local at=0 place id host path
  say 'lists the log directories'
  for place in ${places[@]+"${places[@]}"}; do
    read_place "$place"
    if [ -n "$host" ]; then ssh -n -o BatchMode=yes "$host" "ls -- '$path'"; else ls -- "$path"; fi > "$scratch/place.$at" 2> "$scratch/said" ||
      refuse "--logs $place can't be listed ($(tail -n 1 "$scratch/said")): it has to be a log directory that this user may read"
    at=$((at + 1))
  done
}

# check_partition TOPIC NUMBER LEADER REPLICAS IN-SYNC: refuses a partition that can't be copied now
check_partition() {
  local at=0 place known=''
  case $3 in none | -1) refuse "$1-$2 has no leader: bring one of its brokers back, and collect again" ;; esac
  [ "$4" = "$5" ] || refuse "$1-$2 is under-replicated ($5 of $4 replicas are in sync): wait until all are, since ends are high watermarks"
  for place in ${places[@]+"${places[@]}"}; do
    if [ "${place%%=*}" = "$3" ]; then
      known=yes
      ! grep -qxF -- "$1-$2" "$scratch/place.$at" || return 0
    fi
    at=$((at + 1))
  done
  [ -n "$known" ] || refuse "$1-$2 is led by broker $3, and no --logs $3=.. says where its logs lie"
  refuse "$1-$2 has no folder in the log directories of its leader, broker $3: give all of its log.dirs, each by --logs $3=.."
}

# copy_partition TOPIC NUMBER LEADER: its segments, from the leader's log directory
copy_partition() {
  local at=0 place id host path to=$part/$1-$2
  for place in ${places[@]+"${places[@]}"}; do
    read_place "$place"
    if [ "$id" = "$3" ] && grep -qxF -- "$1-$2" "$scratch/place.$at"; then break; fi
    at=$((at + 1))
  done
  if [ -n "$is_dry" ]; then
    say "would copy ${host:+$host:}$path/$1-$2/*.log"
    return 0
  fi
  mkdir "$to" || refuse "$to can't be made: look at the room and the rights there"
  if [ -z "$host" ]; then cp -p "$path/$1-$2/"*.log "$to/"
  elif [ "$with" = rsync ]; then rsync -a --include='*.log' --exclude='*' "$host:$path/$1-$2/" "$to/"
  else scp -q -p -B "$host:$path/$1-$2/*.log" "$to/"; fi > "$scratch/said" 2>&1 ||
    refuse "$1-$2 can't be copied from ${host:+$host:}$path ($(tail -n 1 "$scratch/said")): look at rights and room, and collect again"
  set -- "$1-$2" "$to"/*.log
  [ -f "$2" ] || refuse "$1 has no segment in ${host:+$host:}$path: it isn't a log directory, or the partition moved; collect again"
  printf '%s\n' "$1" >> "$scratch/copied"
}

# copy_topics: the partitions of the topics that are asked for
copy_topics() {
  local topic number leader replicas in_sync
  topics > "$scratch/wanted"
  while read -r topic; do
    has_topic "$topic" || refuse "no topic $topic is there: look at its name, and whether anything ran"
    look_at_settings "$topic"
  done < "$scratch/wanted"
  [ ! -s "$scratch/notes" ] || while read -r topic; do say "$topic"; done < "$scratch/notes"
  awk 'NR == FNR { wanted[$1]; next } $1 in wanted' "$scratch/wanted" "$scratch/partitions" > "$scratch/chosen"
  while read -r topic number leader replicas in_sync; do
    check_partition "$topic" "$number" "$leader" "$replicas" "$in_sync"
  done < "$scratch/chosen"
  say "copies $(wc -l < "$scratch/chosen" | tr -d ' ') partitions, each from its leader"
  while read -r topic number leader replicas in_sync; do
    copy_partition "$topic" "$number" "$leader" < /dev/null
  done < "$scratch/chosen"
}

# The partitions that the manifest names and that weren't copied: transactions wrote to them, those of other applications too.
# Then the manifest is written anew, for what is noted of it.
copy_listed() {
  local name topic number leader replicas in_sync
  grep -oE '"[A-Za-z0-9._-]+-[0-9]+":[0-9]+' "$part/evidence.json" | sed 's/^"//; s/":[0-9]*$//' | sort > "$scratch/named"
  sort "$scratch/copied" > "$scratch/have"
  for name in $(comm -23 "$scratch/named" "$scratch/have"); do
    say "copies $name, which a transaction wrote"
    read -r topic number leader replicas in_sync < <(awk -v topic="${name%-*}" -v number="${name##*-}" '$1 == topic && $2 == number' "$scratch/partitions") ||
      refuse "$name isn't there, and a transaction wrote to it: the topic was deleted, so that this run can't be judged"
    check_partition "$topic" "$number" "$leader" "$replicas" "$in_sync"
    copy_partition "$topic" "$number" "$leader" < /dev/null
  done
  ! comm -23 "$scratch/named" "$scratch/have" | grep -q . || { rm "$part/evidence.json" && write_manifest; }
}

write_manifest() {
  local words=() app
  for app in ${apps[@]+"${apps[@]}"}; do words=(${words[@]+"${words[@]}"} --app "$app"); done
  say "writes the manifest ($program init)"
  cp "$scratch/ends" "$part/ends.txt" || refuse "$part/ends.txt can't be written: look at the room there"
  "$program" init ${words[@]+"${words[@]}"} --ends "$part/ends.txt" "$part" > "$scratch/made" 2> "$scratch/noted" ||
    refuse "no manifest could be written ($(head -n 1 "$scratch/noted")): look at --app; a partition without an end is of a deleted topic"
}

# What moved between the two readings of the ends, of the partitions that were copied.
check_ends() {
  local moved
  moved=$(awk -F: '
    FILENAME == ARGV[1] { copied[$0]; next }
    FILENAME == ARGV[2] { first[$1 "-" $2] = $3; next }
    { second[$1 "-" $2] = $3 }
    END { for (name in copied) if (first[name] != second[name]) print name " moved from " first[name] " to " second[name] }
  ' "$scratch/copied" "$scratch/ends" "$scratch/ends_after" | sort | head -n 1)
  [ -z "$moved" ] || refuse "the end of $moved while it was copied: something still writes; stop it, and collect again"
}

# ---- the two things that it does

configure() {
  local version topic absent=''
  look_at_features
  look_at_topics
  if [ "$version" -ge 2 ] 2> /dev/null; then say "transaction.version is $version already"; else change kafka-features upgrade --feature transaction.version=2; fi
  for topic in "${internal[@]}"; do
    if has_topic "$topic"; then
      change kafka-configs --alter --entity-type topics --entity-name "$topic" --add-config "$kept"
    else
      absent="$absent $topic"
    fi
  done
  [ -z "$absent" ] || refuse "not there yet:$absent: brokers make them at their first use; begin the run, and call this again at once"
  say 'the cluster is ready; after the run collect without --configure'
}

collect() {
  local version status group
  look_at_topics
  look_at_features
  : > "$scratch/notes"
  : > "$scratch/copied"
  [ "$version" -ge 2 ] 2> /dev/null ||
    printf 'note: transaction.version is %s: with it no log can pass; set 2 before a run (--configure)\n' "$version" >> "$scratch/notes"
  wait_for_rest
  note_groups
  say 'reads the ends (kafka-get-offsets.sh --time -1)'
  ask_ends ends
  list_places
  if [ -z "$is_dry" ]; then
    room=$(mktemp -d "$(dirname "$folder")/.collect.XXXXXX") || refuse "no folder can be made beside $folder: look at the rights there"
    part=$room/evidence
    mkdir "$part" || refuse "$part can't be made: look at the room there"
  fi
  copy_topics
  if [ -n "$is_dry" ]; then
    say "would read the ends again, write the manifest and check $folder"
    return 0
  fi
  write_manifest
  copy_listed
  say 'reads the ends again'
  ask_ends ends_after
  check_ends
  finish
}

# Puts the folder in its place and checks it.
finish() {
  local status
  cat "$scratch/noted" >&2
  [ ! -e "$folder" ] || refuse "$folder has come meanwhile: give another folder"
  mv "$part" "$folder" || refuse "$folder can't be made: look at the rights there"
  say "checks $folder ($program check)"
  "$program" check "$folder"
  status=$?
  exit $status
}

trap clear_up EXIT
trap 'exit 130' HUP INT TERM
read_words "$@"
check_words
find_tools
scratch=$(mktemp -d) || refuse 'no folder for notes can be made: look at TMPDIR'
if [ -n "$is_configuring" ]; then configure; else collect; fi
