#!/usr/bin/env bash
# Does what docs/TUTORIAL.md tells, command by command, in a new folder, and compares what is printed with what the records
# say. The program is the first word, or the one that `rt run` left in crates/quick_node/out. It needs dpkg-query and python3.
set -euo pipefail
here=$(cd "$(dirname "$0")/.." && pwd)
program=$(realpath "${1:-$here/crates/quick_node/out/quick_node}")
folder=$(mktemp -d)
trap 'rm -rf "$folder"' EXIT
cd "$folder"
poltyqen() { "$program" demo/store demo/logs "$@"; }
same() { # WHAT GIVEN WANTED
    if [ "$2" != "$3" ]; then
        printf 'differs: %s\n  given:  %s\n  wanted: %s\n' "$1" "$2" "$3" >&2
        exit 1
    fi
    printf 'ok: %s\n' "$1"
}
# What a question over the records gives: an expression of `records`, those that the index accepts.
told() {
    python3 - "$1" <<'END'
import json, sys
records, refused = [], 0
for line in open("demo/logs/packages", encoding="utf-8"):
    try:
        record = json.loads(line)
        if not isinstance(record, dict):
            raise ValueError
        records.append(record)
    except ValueError:
        refused += 1
words = lambda r: "".join(c if c.isalnum() else " " for c in r["body"].lower()).split()
print(eval(sys.argv[1]))
END
}
ran() { poltyqen run --indexers 1 --searchers 1 "$@"; }
asked() { printf 'a %s\n' "$1" | ran --turns 0 | sed -n 1p; } # the reply line to a request
field() { python3 -c 'import json, sys; print(eval(sys.argv[1], {"r": json.load(sys.stdin)}))' "$1"; }

mkdir -p demo/store demo/logs
dpkg-query -W -f='{"name":"${Package}","section":"${Section}","size":${Installed-Size},"body":"${binary:Summary}"}\n' > demo/logs/packages
cat > demo/config.toml <<'END'
index_id = "packages"

[doc_mapping]
mode = "strict"
field_mappings = [
    { name = "name", type = "text", tokenizer = "raw" },
    { name = "section", type = "text", tokenizer = "raw", fast = true },
    { name = "size", type = "u64", fast = true },
    { name = "body", type = "text", record = "position" },
]

[search_settings]
default_search_fields = ["body"]

[indexing_settings]
split_num_docs_target = 500

[indexing_settings.merge_policy]
merge_factor = 3
END
same 'create' "$(poltyqen create < demo/config.toml)" created
same 'create a second time' "$(poltyqen create < demo/config.toml || true)" 'error 9 indexexists'
same 'a run' "$(ran --turns 0 < /dev/null | tr '\n' ';')" 'indexer 0 caughtup;merger turns;deleter turns;collector turns;'
lines=$(wc -l < demo/logs/packages)
same 'describe' "$(poltyqen describe | tail -n 2 | tr '\n' ';')" "docs $(told 'len(records)') rejected $(told 'refused');checkpoint packages $lines;"
same 'splits' "$(poltyqen splits | wc -l)" "$(((lines + 499) / 500))"
same 'a phrase' "$(asked '{"search":{"query":"\"shared library\"","max_hits":2}}' | field 'r["num_hits"]')" \
    "$(told 'sum(any(w[i:i+2] == ["shared", "library"] for i in range(len(w))) for w in map(words, records))')"
same 'a range, the greatest first' "$(asked '{"search":{"query":"size:[1000 TO 2000]","sort_by":"-size","max_hits":3}}' | field '[h["size"] for h in r["hits"]]')" \
    "$(told 'sorted((r["size"] for r in records if 1000 <= r["size"] <= 2000), reverse=True)[:3]')"
same 'terms' "$(asked '{"search":{"query":"*","max_hits":0,"aggs":{"sections":{"terms":{"field":"section","size":3}}}}}' | field '[(b["doc_count"], b["key"]) for b in r["aggregations"]["sections"]["buckets"]]')" \
    "$(told '[(-n, k) for n, k in sorted((-sum(r["section"] == k for r in records), k) for k in {r["section"] for r in records})[:3]]')"

# The log grows a little, three times: small splits come, and a merger makes one of them.
lines_of() { yes "$1" | head -n "$2" || true; }
for _ in 1 2 3; do
    head -n 10 demo/logs/packages > more
    cat more >> demo/logs/packages
    before=$(poltyqen splits | wc -l)
    ran --turns 0 < /dev/null > outcomes
    same 'a small split' "$(poltyqen splits | wc -l)" "$((before + 1))"
done
small=$(poltyqen splits | awk '$2 == "published" && $4 < 500' | wc -l)
same 'a search before the merge' "$(asked '{"search":{"query":"*","max_hits":0}}' | field 'r["num_hits"]')" "$(told 'len(records)')"
lines_of merger 30 | poltyqen drive > outcomes
same 'a plan' "$(head -n 1 outcomes)" "merger planned $small"
same 'a merge' "$(grep -c replaced outcomes)" 1
same 'what it stands for' "$(poltyqen splits | grep -c marked)" "$small"
same 'its row' "$(poltyqen splits | awk '$2 == "published" && $8 == 1' | wc -l)" 1
same 'no more to merge' "$(tail -n 1 outcomes)" 'merger nothing'
same 'the same behind the merge' "$(asked '{"search":{"query":"*","max_hits":0}}' | field 'r["num_hits"]')" "$(told 'len(records)')"

# A client deletes a section, and a delete worker removes it.
libs='{"search":{"query":"section:libs","max_hits":0}}'
gone=$(told 'sum(r["section"] == "libs" for r in records)')
same 'found before the delete' "$(asked "$libs" | field 'r["num_hits"]')" "$gone"
published=$(poltyqen splits | awk '$2 == "published"' | wc -l)
printf '%s\n' 'a {"delete":{"query":"section:libs"}}' | ran --turns 100 --settle > outcomes
same 'a delete' "$(head -n 1 outcomes | field 'r["opstamp"]')" 1
same 'settled' "$(tail -n 5 outcomes | tr '\n' ';')" 'indexer 0 caughtup;merger nothing;deleter nothing;collector nothing;settled;'
same 'what splits says of it' "$(poltyqen splits | awk '$2 == "published"' | grep -c ':0:1')" "$published"
same 'found no more' "$(asked "$libs" | field 'r["num_hits"]')" 0
same 'the others are left' "$(asked '{"search":{"query":"*","max_hits":0}}' | field 'r["num_hits"]')" "$(told "len(records) - $gone")"

# The log grows, and the program is killed while it indexes.
cp demo/logs/packages more
for _ in $(seq 40); do cat more; done >> demo/logs/packages
for pause in 0.2 0.4 0.6; do
    "$program" demo/store demo/logs run --indexers 1 --searchers 1 --turns 0 < /dev/null > /dev/null 2>&1 &
    sleep "$pause"
    kill -9 $! || true
    wait $! || true
done
same 'caught up behind the kills' "$(ran --turns 0 < /dev/null | head -n 1)" 'indexer 0 caughtup'
lines=$(wc -l < demo/logs/packages)
same 'describe behind the kills' "$(poltyqen describe | tail -n 2 | tr '\n' ';')" "docs $(told "len(records) - $gone") rejected $(told 'refused');checkpoint packages $lines;"
same 'each record once' "$(asked '{"search":{"query":"*","max_hits":0}}' | field 'r["num_hits"]')" "$(told "len(records) - $gone")"
same 'words that are no command' "$(poltyqen frobnicate < /dev/null || true)" 'error 1 badwords'

# The client for scripts, over the same program and folders of its own.
python3 "$here/clients/python/test_poltyqen.py" "$program" 2> tests || { cat tests >&2; exit 1; }
same 'the tests of the client for scripts' "$(tail -n 1 tests)" OK
printf 'all as the tutorial says\n'
