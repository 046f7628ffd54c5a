#!/usr/bin/env bash
# What one run of the rows of edge_rows cannot show of a folder of objects and of a log: a folder that may not be read, a disk
# that is full, a folder from which nothing can be removed, links and pipes, a folder in which another program writes, and a log
# that shrinks. Prints a line for each, and ends with 0 where all hold.
# Usage: trials/edges.sh [PROGRAM], where PROGRAM is edge_rows as `rt run` or `rt ci` built it.
program=$(realpath "${1:-$(dirname "$0")/../crates/edge_rows/out/edge_rows}")
room=$(mktemp -d) || exit 1
mounted=
finish() { [ -n "$mounted" ] && umount "$room/disk/store"; chmod -R u+rwX "$room"; rm -rf "$room"; }
trap finish EXIT
chmod 755 "$room"
bad=0

# The lines of the rows, as a user whom folders can refuse.
as_anyone() { if [ "$(id -u)" = 0 ]; then setpriv --reuid=65534 --regid=65534 --clear-groups "$@"; else "$@"; fi; }
# The answers to the lines of the standard input in a folder, by the files beside of a writer.
rows() { (cd "$1" && as_anyone "$program" "$2"); }
# The same, which must not wait.
as_timed() { (cd "$1" && as_anyone timeout 20 "$program" "$2"); }
# A place that anyone may write in.
place() { mkdir -p "$room/$1" && chmod 777 "$room/$1"; }
# Whether an answer is the one that has to come.
holds() { if [ "$2" = "$3" ]; then echo "holds: $1"; else echo "FAILS: $1: '$3' in place of '$2'"; bad=1; fi; }
several() { printf '%s\n' "$@"; }

place closed
several 'folder store' 'create a/1 one' | rows "$room/closed" 1 >"$room/first"
holds 'an object is made' "$(several ok ok)" "$(cat "$room/first")"
chmod 000 "$room/closed/store"
asked() { several 'get a/1 0 9' 'list a/' 'create a/2 two' 'delete a/1' | rows "$room/closed" 1; }
holds 'a folder that may not be read: each call fails and is counted' "$(several 'failed 1' 'failed 2' 'failed 3' 'failed 4')" "$(asked)"
chmod 755 "$room/closed/store"
holds 'and nothing was lost' "$(several 'one of 3' 'a/1')" "$(several 'get a/1 0 9' 'list a/' | rows "$room/closed" 1)"

place disk
mkdir "$room/disk/store"
if mount -t tmpfs -o size=64k,mode=777 tmpfs "$room/disk/store" 2>/dev/null; then
    mounted=yes
    large=$(head -c 100000 /dev/zero | tr '\0' x)
    holds 'a full disk: the object fails, and does not stand' "$(several ok 'failed 1' absent 'a/1' ok 'two of 3')" \
        "$(several 'create a/1 one' "create a/2 $large" 'get a/2 0 9' 'list a/' 'create a/3 two' 'get a/3 0 9' | rows "$room/disk" 1)"
else
    echo 'not tried: a full disk (no file system may be mounted here)'
fi

# A folder from which nothing can be removed: an object that stands keeps its bytes, whatever is tried behind it.
place kept
several 'folder store' 'create a/1 one' | rows "$room/kept" 1 >/dev/null
if chattr +a "$room/kept/store/a" 2>/dev/null; then
    holds 'a folder that only grows: each create is a failure that is told' "$(several 'failed 1' 'failed 2' 'failed 3')" \
        "$(several 'create a/2 two' 'create a/3 three' 'create a/4 four' | rows "$room/kept" 2)"
    chattr -a "$room/kept/store/a"
    holds 'and what stands has its own bytes' "$(several 'one of 3' 'two of 3' 'three of 5' 'four of 4')" \
        "$(several 'get a/1 0 9' 'get a/2 0 9' 'get a/3 0 9' 'get a/4 0 9' | rows "$room/kept" reading)"
    several 'create a/5 five' | rows "$room/kept" 3 >/dev/null
    holds 'and the next writer leaves nothing beside' 0 "$(find "$room/kept/store" -name '*.half' | wc -l)"
else
    echo 'not tried: a folder that only grows (chattr does not work here)'
fi

# What lies outside is neither read nor removed, and a pipe keeps nobody waiting.
place links
mkdir "$room/links/store" "$room/links/store/a" "$room/links/victim"
echo secret >"$room/links/victim/1" && echo half >"$room/links/victim/.7.half" && echo half >"$room/links/victim/.7-1.half"
ln -s ../victim "$room/links/store/b" && ln -s ../../victim/1 "$room/links/store/a/1" && mkfifo "$room/links/store/a/2"
chmod -R a+rwX "$room/links"
lines() { several 'list a' 'list b' 'get b/1 0 9' 'get a/1 0 9' 'get a/2 0 9' 'create b/2 two' 'create a/1 one' 'create a/2 two' 'create a/3 three' 'list a/'; }
holds 'links and pipes are no objects, and nothing is made through them' \
    "$(several - - absent absent absent 'failed 1' 'failed 2' 'failed 3' ok a/3)" "$(lines | as_timed "$room/links" 1)"
holds 'and what lies behind the link stays as it was' "$(several .7-1.half .7.half 1)" "$(ls -A "$room/links/victim")"

# Another program writes: a second writer fails at each call, a reader is not disturbed.
place taken
mkdir "$room/taken/store" && chmod 777 "$room/taken/store" && mkfifo "$room/taken/lines"
rows "$room/taken" 1 <"$room/taken/lines" >"$room/taken/first" &
first=$!
exec 7>"$room/taken/lines"
echo 'create a/1 one' >&7
for _ in $(seq 100); do [ -s "$room/taken/first" ] && break; sleep 0.05; done
holds 'a second writer finds the folder taken' "$(several 'failed 1' 'failed 2')" "$(several 'create a/2 two' 'get a/1 0 9' | rows "$room/taken" 2)"
holds 'a reader does not' "$(several 'one of 3' 'a/1')" "$(several 'get a/1 0 9' 'list a/' | rows "$room/taken" reading)"
exec 7>&-
wait $first
holds 'and when the first is done, the second may write' ok "$(several 'create a/2 two' | rows "$room/taken" 2)"

# A log that shrinks, a file that may not be read, links and a pipe among the logs.
place shrinks
mkdir "$room/shrinks/logs" && printf '1\n2\n3\n4\n' >"$room/shrinks/logs/p0" && printf 'x\n' >"$room/shrinks/logs/p1"
ln -s p2 "$room/shrinks/logs/p2" && mkfifo "$room/shrinks/logs/p3" && printf 'y\n' >"$room/shrinks/logs/p4" && chmod 000 "$room/shrinks/logs/p4"
chmod 755 "$room/shrinks/logs"
holds 'of the names, plain files are partitions: one that can not be read is told once, and passed over then' \
    "$(several 'failed 1' 'p0 p1' 'p0 p1')" "$(several partitions partitions partitions | as_timed "$room/shrinks" 1)"
chmod 644 "$room/shrinks/logs/p4"
holds 'and is a partition when it can be read' 'p0 p1 p4' "$(several partitions | as_timed "$room/shrinks" 1)"
chmod 000 "$room/shrinks/logs/p4"
printf '1\n2\n' >"$room/shrinks/logs/p0"
holds 'a log that shrank is told, and keeps nobody from the rest of it' "$(several 'failed 1' end '[x] end' '[2] end')" \
    "$(several 'read p0 3 9' 'read p0 3 9' 'read p1 0 9' 'read p0 1 9' | as_timed "$room/shrinks" 1)"
holds 'what is asked for by name: a link and a pipe are no partitions, a file that may not be read is told' "$(several end end 'failed 1')" \
    "$(several 'read p2 0 9' 'read p3 0 9' 'read p4 0 9' | as_timed "$room/shrinks" 1)"

exit $bad
