#!/usr/bin/env bash
# Two runs over one file: what the first one set is there in the second, and `ask` tells an access of it. Then a run that is
# killed between two messages, and files that can't be used. It says what it does, and ends with 1 where something isn't as it
# should be. It is no part of the gate.
set -u
top=$(cd "$(dirname "$0")/.." && pwd)
folder=$(mktemp -d)
trap 'rm -rf "$folder"' EXIT
db=$folder/iamd.db
opening=(--org 1000 --domain example.com --customer C01 --admin user:ada@example.com)
organization=//cloudresourcemanager.googleapis.com/organizations/1000
wrong=0

request() { # VERB CALLER BODY
    printf 'POST /v3/organizations/1000:%s HTTP/1.1\r\nHost: localhost\r\nx-iam-caller: user:%s@example.com\r\nContent-Length: %d\r\n\r\n%s' \
        "$1" "$2" "${#3}" "$3"
}

setting() { # ETAG
    printf '{"policy":{"etag":"%s","bindings":[{"role":"roles/resourcemanager.organizationAdmin","members":["user:ada@example.com"]},{"role":"roles/viewer","members":["user:bob@example.com"]}]}}' "$1"
}

ask() { # CALLER PERMISSION
    "$top/iamd" ask --db "$db" --principal "$1@example.com" --resource "$organization" --permission "$2"
}

# Runs it over the input that stands in the file `input`, and looks at its exit, at the word on standard error and for
# each TEXT in what it writes.
try() { # EXIT WORD TEXT.. -- COMMAND..
    local exit=$1 word=$2 texts=() got text
    shift 2
    while [ "$1" != -- ]; do
        texts+=("$1")
        shift
    done
    shift
    "$@" <"$folder/input" >"$folder/output" 2>"$folder/errors"
    got=$?
    if [ "$got" != "$exit" ] || { [ -n "$word" ] && [ "$(cat "$folder/errors")" != "iamd: $word" ]; }; then
        echo "  WRONG: exit $got, $(cat "$folder/errors")"
        wrong=1
    fi
    for text in "${texts[@]}"; do
        if ! grep -qF -- "$text" "$folder/output"; then
            echo "  WRONG: no $text in $(cat "$folder/output")"
            wrong=1
        fi
    done
}

# The same for a file that can't be used, which is to be as it was.
refuse() { # EXIT WORD FILE
    local before after
    before=$(sha256sum "$3" 2>&1)
    try "$1" "$2" -- "$top/iamd" apply --db "$3" "${opening[@]}"
    after=$(sha256sum "$3" 2>&1)
    if [ "$before" != "$after" ]; then
        echo "  WRONG: $3 was changed"
        wrong=1
    fi
}

echo "The first run opens an organisation in the file, and its policy is set."
request setIamPolicy ada "$(setting AAAAAAAAAAE=)" >"$folder/input"
try 0 "" 'x-iam-revision: 2' '"etag":"AAAAAAAAAAI="' -- "$top/iamd" apply --db "$db" "${opening[@]}"

echo "The second run goes on from there, without an opening: the policy is read, an old etag is refused, and it is set again."
{
    request getIamPolicy ada ""
    request setIamPolicy ada "$(setting AAAAAAAAAAE=)"
    request setIamPolicy ada "$(setting AAAAAAAAAAI=)"
} >"$folder/input"
try 0 "" 'x-iam-revision: 2' 'user:bob@example.com' 'ETAG_MISMATCH' 'x-iam-revision: 3' '"etag":"AAAAAAAAAAM="' -- "$top/iamd" apply --db "$db"

echo "An access is told from what is kept. The input isn't read."
try 0 "" "ALLOWED organizations/1000 0" -- ask ada resourcemanager.organizations.setIamPolicy
try 0 "" "ALLOWED organizations/1000 1" -- ask bob resourcemanager.projects.get
try 0 "" "NOT_GRANTED" -- ask bob resourcemanager.organizations.setIamPolicy
try 0 "" "PERMISSION_UNKNOWN" -- ask ada storage.objects.fly

if command -v sqlite3 >/dev/null; then
    echo "The rows, as sqlite3 shows them:"
    sqlite3 "$db" 'SELECT part, name, body FROM iam_rows ORDER BY part, name' | sed 's/^/  /'
fi

echo "A run sets the policy, reads it a thousand times and sets it again. It is killed behind its first reply, while it waits for its
  replies to be read: the first setting is kept, and the second isn't."
{
    request setIamPolicy ada "$(setting AAAAAAAAAAM=)"
    for _ in $(seq 1000); do request getIamPolicy ada ""; done
    request setIamPolicy ada "$(setting AAAAAAAAAAQ=)"
} >"$folder/input"
mkfifo "$folder/replies"
"$top/iamd" apply --db "$db" <"$folder/input" >"$folder/replies" &
run=$!
exec 3<"$folder/replies"
while IFS= read -r line <&3; do
    case $line in x-iam-revision:*) break ;; esac
done
kill -9 "$run"
wait "$run" 2>/dev/null
exec 3<&-
request getIamPolicy ada "" >"$folder/input"
try 0 "" 'x-iam-revision: 4' '"etag":"AAAAAAAAAAQ="' -- "$top/iamd" apply --db "$db"

echo "A file that isn't a database, a folder, and a file in a folder that isn't there: exit 4, and all is as it was."
printf 'no database, and longer than the head of one would be: %0200d\n' 0 >"$folder/text"
refuse 4 Keeper "$folder/text"
refuse 4 Keeper "$folder"
refuse 4 Keeper "$folder/none/iamd.db"

if command -v sqlite3 >/dev/null; then
    echo "A file with a bad row: exit 3, and it is as it was."
    sqlite3 "$folder/bad.db" "CREATE TABLE iam_rows (part TEXT NOT NULL, name TEXT NOT NULL, body TEXT NOT NULL, PRIMARY KEY (part, name)) STRICT;
        INSERT INTO iam_rows VALUES ('org', 'organizations/1000', '{}')"
    refuse 3 Rows "$folder/bad.db"
fi

# As root this is tried as another user, since root may write any file.
as=()
if [ "$(id -u)" = 0 ]; then
    as=(setpriv --reuid=65534 --regid=65534 --clear-groups --)
fi
if [ "$(id -u)" != 0 ] || command -v setpriv >/dev/null; then
    echo "A file that can't be written: exit 4, and it is as it was."
    mkdir "$folder/locked"
    cp "$top/crates/iamd/out/iamd" "$folder/program"
    cp "$db" "$folder/locked/iamd.db"
    chmod 755 "$folder" "$folder/program"
    chmod 444 "$folder/locked/iamd.db"
    chmod 555 "$folder/locked"
    before=$(sha256sum "$folder/locked/iamd.db")
    try 4 Keeper -- "${as[@]}" "$folder/program" apply --db "$folder/locked/iamd.db"
    if [ "$before" != "$(sha256sum "$folder/locked/iamd.db")" ]; then
        echo "  WRONG: $folder/locked/iamd.db was changed"
        wrong=1
    fi
    chmod 755 "$folder/locked"
fi

[ "$wrong" = 0 ] && echo "All is as it should be."
exit "$wrong"
