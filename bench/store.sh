#!/usr/bin/env bash
# A store on disk: rows that are committed one by one and the syncs of each; how long a large store takes to be attached;
# whether another SQLite and this one read each other's stores.
name=tapestry
. "$(dirname "$0")/common.sh"
store="$scratch/mail.db"
mails="${MAILS:-5000}"
documents="${DOCUMENTS:-100000}"

# So many short mails, each one transaction.
short() {
  awk -v n="$1" 'BEGIN { print "at 1"; for (i = 1; i <= n; i++) { print "mail"; print "Subject: short " i; print ""; print "text"; print "." } }'
}

# Says how many rows a second the last measurement made.
rate() {
  awk "BEGIN { printf \"  rows a second: %.0f\n\", $mails / ($seconds > 0 ? $seconds : 0.01) }"
}

# How often a run over a new store with so many mails syncs a file.
syncs() {
  rm -f "$store" "$store-wal"
  short "$1" | strace -f -e trace=fsync,fdatasync -o "$scratch/trace" "$program" --store "$store" >/dev/null || true
  grep -cE '(fsync|fdatasync)\(' "$scratch/trace" || true
}

# What sqlite3 says of a store: whether it is whole, its version, and the rows of each table.
look() {
  printf '  sqlite3 says: %s; version %s;' "$(sqlite3 "$1" 'PRAGMA integrity_check')" "$(sqlite3 "$1" 'SELECT version FROM meta')"
  for table in docs notes queries runs picks filters; do
    printf ' %s %s' "$table" "$(sqlite3 "$1" "SELECT count(*) FROM $table")"
  done
  echo
}

# One row a transaction.
short "$mails" >"$scratch/script"
measure "$mails short mails, in memory" "$scratch/script"
rate
measure "$mails short mails, in a file" "$scratch/script" --store "$store"
rate
if command -v strace >/dev/null; then
  none=$(syncs 0)
  some=$(syncs 100)
  awk "BEGIN { printf \"syncs: %d to open a new store, %.2f a commit\n\", $none, ($some - $none) / 100 }"
else
  echo 'strace is not installed: no syncs were counted'
fi

# Documents of 1 KB in mailboxes of 12,500, each one transaction.
rm -f "$store" "$store-wal"
awk -v n="$documents" 'BEGIN {
  print "at 1"
  for (i = 1; i <= n; i++) {
    if (i % 12500 == 1) print "mbox"
    print "From nobody"; print "Subject: mail number " i; print "Message-ID: <" i "@example.org>"; print ""
    for (j = 0; j < 14; j++) print "word" ((i * 7 + j) % 997) " and some more text that fills a line of this message up " j
    print ""
    if (i % 12500 == 0 || i == n) print "."
  }
}' >"$scratch/script"
measure "$documents documents of 1 KB are added" "$scratch/script" --store "$store"
: >"$scratch/nothing"
measure 'they are attached' "$scratch/nothing" --store "$store"
measure 'and once more' "$scratch/nothing" --store "$store"

if ! command -v sqlite3 >/dev/null; then
  echo 'sqlite3 is not installed: no store was read by it, and none was made by it'
  exit 0
fi
look "$store"

# After a session a copy of the file alone is a backup.
cp "$store" "$scratch/backup.db"
look "$scratch/backup.db"

# A store with rows in each table, read by sqlite3.
rm -f "$store" "$store-wal"
printf '%s\n' 'as ann' 'at 100' "query q m.words HAS 'hi'" mail 'Subject: hi' '' . 'note 1 score 7 x' filter "WHEN TRUE PRIORITY 1 CLASS 'a'" . 'at 101' 'run q' >"$scratch/script"
measure 'a row in each table' "$scratch/script" --store "$store"
look "$store"
echo "  its document: $(sqlite3 "$store" 'SELECT num, arrival, hex(body) FROM docs'); its pick: $(sqlite3 "$store" 'SELECT num, query, run, doc, second FROM picks')"

# A store that sqlite3 makes by the statements of the program's source. The program reads it and adds to it.
other="$scratch/other.db"
sed -e ':more' -e '/\\$/{ N; s/\\\n *//; b more' -e '}' "$top/crates/keeper_sql/src/create.rt" |
  grep -o 'CREATE TABLE IF NOT EXISTS[^"]*STRICT' | sed 's/$/;/' >"$scratch/other.sql"
cat >>"$scratch/other.sql" <<'SQL'
INSERT INTO meta VALUES (1, 1);
INSERT INTO docs VALUES (1, 100, x'5375626a6563743a2068690a0a');
INSERT INTO queries VALUES (1, x'616e6e', x'71', CAST('m.words HAS ''hi''' AS BLOB), 100);
INSERT INTO runs VALUES (1, 1, 101);
INSERT INTO picks VALUES (1, 1, 1, 1, 100);
SQL
sqlite3 "$other" <"$scratch/other.sql"
printf '%s\n' 'as ann' 'at 102' mail 'Subject: hi' '' . 'at 103' 'run q' 'box q' >"$scratch/script"
measure 'a store that sqlite3 made' "$scratch/script" --store "$other"
look "$other"
