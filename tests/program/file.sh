#!/usr/bin/env bash
# Checks a file of the program with another tool: stock sqlite3 if it is there, else the module
# sqlite3 of python3. Prints `ok` at the end.
#
#     tests/program/file.sh [PROGRAM]      by default the program that ./office built
set -eu
top=$(cd "$(dirname "$0")/../.." && pwd)
program=$(python3 "$top/tests/lib/program.py" "${@:1:1}") || exit 2
folder=$(mktemp -d)
trap 'rm -rf "$folder"' EXIT
file=$folder/office.db

fail() {
  echo "file.sh: $1" >&2
  exit 1
}

# Prints the rows of a query, the columns with | between.
query() {
  if command -v sqlite3 >"$folder/which" 2>&1; then
    sqlite3 -batch -noheader "$file" "$1"
  else
    python3 - "$file" "$1" <<'PYTHON'
import sqlite3
import sys

db = sqlite3.connect(sys.argv[1], isolation_level=None)
for row in db.execute(sys.argv[2]):
    print("|".join("" if value is None else str(value) for value in row))
PYTHON
  fi
}

# Runs the program on the requests of standard input, over the file.
batch() {
  "$program" batch --db "$file" >"$folder/answers" || fail "batch ended with status $?"
}

# Compares what was found with what is wanted.
same() {
  [ "$2" = "$3" ] || fail "$1: found '$2', wanted '$3'"
}

body='{"id":12,"interval":365,"name":"Main St"}'
printf 'POST /intersections HTTP/1.1\r\nContent-Length: %d\r\n\r\n%s' "${#body}" "$body" | batch
same "the answer to the first run" "$(tail -n 1 "$folder/answers")" '{"result":"added"}'

same "the tables" \
  "$(query "SELECT name FROM sqlite_master WHERE type = 'table' ORDER BY name" | tr '\n' ' ')" \
  "delivery draft inspection intersection office_version part timing used_part work_order "
same "the row of the intersection" \
  "$(query "SELECT id, name, days, revision, state, owner FROM intersection")" "12|Main St|365|0|0|"
same "the stored version" "$(query "SELECT one, version FROM office_version")" "1|2"
same "the check of the file" "$(query "PRAGMA integrity_check")" "ok"

printf 'GET /intersections/12 HTTP/1.1\r\n\r\n' | batch
same "the answer to the second run" "$(tail -n 1 "$folder/answers")" \
  '{"id":12,"interval":365,"name":"Main St","owner":null,"revision":0,"rows":0,"state":"normal","verify":"notDone"}'

# What another tool writes is found as well.
query "INSERT INTO intersection VALUES (13, 'Oak St', 30, 0, 0, NULL)"
printf 'GET /intersections/13 HTTP/1.1\r\n\r\n' | batch
same "the answer to the third run" "$(tail -n 1 "$folder/answers")" \
  '{"id":13,"interval":30,"name":"Oak St","owner":null,"revision":0,"rows":0,"state":"normal","verify":"notDone"}'

query "UPDATE office_version SET version = 9"
status=0
"$program" batch --db "$file" </dev/null >"$folder/answers" 2>"$folder/errors" || status=$?
same "the status over another version" "$status" 1
same "the fault over another version" "$(cat "$folder/errors")" "fault: version"

# A file of version 1, made by another tool alone, is brought to today's version; no other command takes it before.
file=$folder/old.db
query "CREATE TABLE intersection (id INTEGER PRIMARY KEY, name TEXT NOT NULL, days INTEGER NOT NULL,
  revision INTEGER NOT NULL, state INTEGER NOT NULL, owner TEXT) STRICT"
query "CREATE TABLE timing (inter INTEGER NOT NULL REFERENCES intersection, kind INTEGER NOT NULL,
  a INTEGER NOT NULL, b INTEGER NOT NULL, body TEXT NOT NULL, PRIMARY KEY (inter, kind, a, b)) STRICT"
query "CREATE TABLE draft (inter INTEGER NOT NULL REFERENCES intersection, kind INTEGER NOT NULL,
  a INTEGER NOT NULL, b INTEGER NOT NULL, body TEXT, PRIMARY KEY (inter, kind, a, b)) STRICT"
query "CREATE TABLE inspection (inter INTEGER NOT NULL REFERENCES intersection, number INTEGER NOT NULL,
  day INTEGER NOT NULL, clerk TEXT NOT NULL, body TEXT NOT NULL, PRIMARY KEY (inter, number)) STRICT"
query "CREATE TABLE work_order (inter INTEGER NOT NULL REFERENCES intersection, number INTEGER NOT NULL,
  opened INTEGER NOT NULL, clerk TEXT NOT NULL, body TEXT NOT NULL, closed INTEGER, closer TEXT,
  PRIMARY KEY (inter, number)) STRICT"
query "CREATE TABLE part (code TEXT NOT NULL PRIMARY KEY, hand INTEGER NOT NULL CHECK (hand >= 0)) STRICT"
query "CREATE TABLE delivery (part TEXT NOT NULL REFERENCES part, number INTEGER NOT NULL,
  day INTEGER NOT NULL, amount INTEGER NOT NULL, PRIMARY KEY (part, number)) STRICT"
query "CREATE TABLE used_part (inter INTEGER NOT NULL REFERENCES intersection, ord INTEGER NOT NULL,
  line INTEGER NOT NULL, part TEXT NOT NULL REFERENCES part, amount INTEGER NOT NULL,
  PRIMARY KEY (inter, ord, line), FOREIGN KEY (inter, ord) REFERENCES work_order) STRICT"
query "CREATE TABLE office_version (one INTEGER PRIMARY KEY CHECK (one = 1), version INTEGER NOT NULL) STRICT"
query "INSERT INTO office_version VALUES (1, 1)"
query "INSERT INTO intersection VALUES (12, 'Main St', 365, 1, 1, 'Ana')"
query "INSERT INTO timing VALUES
  (12, 1, 2, 0, 'phase,2,1,8,20,40,40,15,,7,12,490,60,0'), (12, 2, 1, 1, 'seq,1,1,2')"
query "INSERT INTO draft VALUES
  (12, 1, 2, 0, 'phase,2,1,8,20,40,40,15,,7,12,480,60,0'), (12, 2, 1, 1, NULL)"

status=0
"$program" batch --db "$file" </dev/null >"$folder/answers" 2>"$folder/errors" || status=$?
same "the status over version 1" "$status" 1
same "the fault over version 1" "$(cat "$folder/errors")" "fault: version"

same "the migration" "$("$program" migrate --db "$file")" "migrated 2 rows"
same "the migrated version" "$(query "SELECT one, version FROM office_version")" "1|2"
same "the migrated plan" "$(query "SELECT kind, a, b, body FROM timing ORDER BY kind" | tr '\n' ' ')" \
  "1|2|0|phase,2,1,8,20,40,40,15,,7,12,490,60,0,0 2|1|1|seq,1,1,2 "
same "the migrated draft" "$(query "SELECT kind, a, b, body FROM draft ORDER BY kind" | tr '\n' ' ')" \
  "1|2|0|phase,2,1,8,20,40,40,15,,7,12,480,60,0,0 2|1|1| "
same "the check of the migrated file" "$(query "PRAGMA integrity_check")" "ok"
same "the second migration" "$("$program" migrate --db "$file")" "migrated 0 rows"
printf 'GET /intersections/12 HTTP/1.1\r\n\r\n' | batch
same "the answer after the migration" "$(tail -n 1 "$folder/answers")" \
  '{"id":12,"interval":365,"name":"Main St","owner":"Ana","revision":1,"rows":2,"state":"transaction","verify":"notDone"}'

# The command that adds an intersection makes a file, in which the other tool finds the row.
file=$folder/added.db
same "what is added to no file" "$("$program" add --db "$file" 12 365 "Main St")" "added"
same "what is added again" "$("$program" add --db "$file" 12 365 "Main St")" "same"
same "the row that was added" "$(query "SELECT id, name, days FROM intersection")" "12|Main St|365"
same "the check of the file that was made" "$(query "PRAGMA integrity_check")" "ok"

# A report makes no file; a folder and a file of another kind are refused.
faulty() {
  status=0
  "$program" "${@:2}" >"$folder/answers" 2>"$folder/errors" || status=$?
  same "the status of $2 over $1" "$status" 1
  same "what $2 prints over $1" "$(cat "$folder/answers")" ""
}
faulty "no file" sheet --db "$folder/new.db" 12
same "the fault over no file" "$(cat "$folder/errors")" "note: there is no file $folder/new.db
fault: file"
same "what a report makes" "$(find "$folder" -name 'new.db*')" ""
faulty "a file that is not there" migrate --db "$folder/none.db"
same "what a migration says of no file" "$(cat "$folder/errors")" \
  "note: there is no file $folder/none.db
fault: version"
same "what a migration makes" "$(find "$folder" -name 'none.db*')" ""
: >"$folder/empty.db"
faulty "an empty file" migrate --db "$folder/empty.db"
same "what a migration says of an empty file" "$(cat "$folder/errors")" \
  "note: $folder/empty.db is empty, and no log stands beside it
fault: version"
same "what a migration makes of an empty file" \
  "$(find "$folder" -name 'empty.db*' -size -1c | wc -l)" 1
same "what a migration makes beside it" "$(find "$folder" -name 'empty.db*' | wc -l)" 1
faulty "a folder" overdue --db "$folder" 2027-03-02
same "the fault over a folder" "$(cat "$folder/errors")" "note: $folder is a folder
fault: store"
{ echo "this is no database"; head -c 8192 /dev/zero; } >"$folder/text.db"
faulty "a file of another kind" sheet --db "$folder/text.db" 12
same "the fault over a file of another kind" "$(cat "$folder/errors")" \
  "note: $folder/text.db is no database
fault: store"

# A link that leads nowhere is told as that. A copy replaces neither its office nor what belongs to it.
ln -s none.db "$folder/link.db"
faulty "a link that leads nowhere" stock --db "$folder/link.db"
same "the fault over a link that leads nowhere" "$(cat "$folder/errors")" \
  "note: $folder/link.db is a link that leads nowhere
fault: file"
file=$folder/kept.db
same "what is added to be kept" "$("$program" add --db "$file" 12 365 "Main St")" "added"
for to in kept.db kept.db-wal kept.db-turn kept.db.part; do
  faulty "a copy onto $to" backup --force --db "$file" "$folder/$to"
  same "the fault of a copy onto $to" "$(tail -n 1 "$folder/errors")" "fault: exists"
done
same "the row that was kept" "$(query "SELECT id, name, days FROM intersection")" "12|Main St|365"
same "the check of the file that was kept" "$(query "PRAGMA integrity_check")" "ok"

echo ok
