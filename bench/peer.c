/* The work of three kinds of query in plain C, to compare with: bench/shapes.sh, costs.sh and loads.sh measure it beside the program.
 *
 * It reads `at`, `mail`, `mbox` and `run` as the program does, and writes the same replies; it passes over notes. It stores each
 * mail's text, and indexes its words, sender and In-Reply-To. Each reply is put before the next command is read, as the program
 * does; with TOGETHER in the environment replies wait until 64 KiB are full. A query is `query NAME word W`, `query NAME sender A`
 * or `query NAME silence SECONDS` (no reply for so long). Any other line gets `no 1`. It checks no form and no limit. Built with
 * -DSQLITE it takes the path of a store, whose documents it reads first; it stores what comes, a transaction a command. */
#include <stdint.h>
#include <stdio.h>
#include <stdlib.h>
#include <string.h>
#include <unistd.h>
#ifdef SQLITE
#include <sqlite3.h>
#endif

typedef struct { uint32_t *docs; size_t len, room; } List;
typedef struct { char *key; size_t len; List list; } Entry;
typedef struct { Entry *slots; size_t len, room; } Table;

static Table words, senders, replies;
static struct Doc { int64_t arrival; char *text, *id; size_t len, id_len; } *docs;
static size_t doc_count, doc_room;
static int64_t now;

static void *grow(void *old, size_t *room, size_t size) {
  *room = *room ? *room * 2 : 8;
  void *more = realloc(old, *room * size);
  if (!more) exit(7);
  return more;
}

static void push(List *list, uint32_t doc) {
  if (list->len && list->docs[list->len - 1] == doc) return;
  if (list->len == list->room) list->docs = grow(list->docs, &list->room, sizeof doc);
  list->docs[list->len++] = doc;
}

/* The slot of a key, or the free one where it would stand. */
static Entry *slot(Table *table, const char *key, size_t len) {
  uint64_t hash = 14695981039346656037u;
  for (size_t i = 0; i < len; i++) hash = (hash ^ (unsigned char)key[i]) * 1099511628211u;
  size_t at = hash & (table->room - 1);
  while (table->slots[at].key && (table->slots[at].len != len || memcmp(table->slots[at].key, key, len))) at = (at + 1) & (table->room - 1);
  return &table->slots[at];
}

static void add(Table *table, const char *key, size_t len, uint32_t doc) {
  if (table->len * 2 >= table->room) {
    Table next = {calloc(table->room ? table->room * 2 : 16, sizeof(Entry)), table->len, table->room ? table->room * 2 : 16};
    if (!next.slots) exit(7);
    for (size_t i = 0; i < table->room; i++)
      if (table->slots[i].key) *slot(&next, table->slots[i].key, table->slots[i].len) = table->slots[i];
    free(table->slots);
    *table = next;
  }
  Entry *entry = slot(table, key, len);
  if (!entry->key) {
    if (!(entry->key = malloc(len + 1))) exit(7);
    memcpy(entry->key, key, len);
    entry->len = len;
    table->len++;
  }
  push(&entry->list, doc);
}

static List *find(Table *table, const char *key, size_t len) {
  static List none;
  Entry *entry = table->room ? slot(table, key, len) : NULL;
  return entry && entry->key ? &entry->list : &none;
}

static void add_words(const char *text, size_t len, uint32_t doc) {
  static char *word;
  static size_t room;
  while (room < len) word = grow(word, &room, 1);
  for (size_t i = 0; i < len;) {
    size_t from = i;
    for (; i < len; i++) {
      unsigned char c = text[i];
      if (c >= 'A' && c <= 'Z') c |= 32;
      if (!((c >= 'a' && c <= 'z') || (c >= '0' && c <= '9') || c >= 128)) break;
      word[i - from] = c;
    }
    if (i > from) add(&words, word, i - from, doc);
    else i++;
  }
}

static int is(const char *line, const char *start) { return !strncmp(line, start, strlen(start)); }

/* A message id or an address without what is round it. */
static void add_inner(Table *table, const char *text, size_t len, uint32_t doc) {
  if (len > 2 && *text == '<') text++, len -= 2;
  add(table, text, len, doc);
}

/* Stores a copy of the text, and indexes it. */
static void add_mail(int64_t arrival, const char *lines, size_t size) {
  uint32_t doc = doc_count + 1;
  int in_body = 0;
  if (doc_count == doc_room) docs = grow(docs, &doc_room, sizeof *docs);
  struct Doc *new = &docs[doc_count++];
  *new = (struct Doc){arrival, malloc(size + 1), NULL, size, 0};
  if (!new->text) exit(7);
  memcpy(new->text, lines, size);
  new->text[size] = 0;
  char *text = new->text, *end = text + size;
  while (text < end) {
    char *next = memchr(text, '\n', end - text);
    size_t len = (next ? next : end) - text;
    if (in_body) add_words(text, len, doc);
    else if (!len) in_body = 1;
    else if (is(text, "From: ")) add_inner(&senders, text + 6, len - 6, doc);
    else if (is(text, "Subject: ")) add_words(text + 9, len - 9, doc);
    else if (is(text, "In-Reply-To: ")) add_inner(&replies, text + 13, len - 13, doc);
    else if (is(text, "Message-ID: ")) {
      new->id = text + 12, new->id_len = len - 12;
      if (new->id_len > 2 && *new->id == '<') new->id++, new->id_len -= 2;
    }
    text += len + 1;
  }
}

/* The rows that a command adds are one transaction. Without a store these do nothing. */
#ifdef SQLITE
enum { DOC, QUERY, RUN, PICK };
static sqlite3 *store;
static sqlite3_stmt *inserts[4];

static void sql(const char *text) {
  if (store && sqlite3_exec(store, text, NULL, NULL, NULL)) exit(5);
}

static void put_row(int table, int count, const int64_t *numbers, const char *text, size_t len) {
  if (!store) return;
  for (int i = 0; i < count; i++) sqlite3_bind_int64(inserts[table], i + 1, numbers[i]);
  if (text) sqlite3_bind_blob(inserts[table], count + 1, text, len, SQLITE_STATIC);
  if (sqlite3_step(inserts[table]) != SQLITE_DONE) exit(5);
  sqlite3_reset(inserts[table]);
}

static void open_store(const char *path) {
  static const char *const texts[] = {"INSERT INTO docs VALUES (?1, ?2, ?3)", "INSERT INTO queries VALUES (?1, X'', X'', ?3, ?2)",
                                      "INSERT INTO runs VALUES (?1, ?2, ?3)", "INSERT INTO picks VALUES (?1, ?2, ?3, ?4, ?5)"};
  sqlite3_stmt *rows;
  if (sqlite3_open(path, &store)) exit(5);
  sql("PRAGMA journal_mode = WAL; PRAGMA synchronous = FULL;"
      "CREATE TABLE IF NOT EXISTS docs (num INTEGER PRIMARY KEY, arrival INTEGER NOT NULL, body BLOB NOT NULL) STRICT;"
      "CREATE TABLE IF NOT EXISTS queries (num INTEGER PRIMARY KEY, owner BLOB NOT NULL, name BLOB NOT NULL, source BLOB NOT NULL,"
      " arrival INTEGER NOT NULL) STRICT;"
      "CREATE TABLE IF NOT EXISTS runs (num INTEGER PRIMARY KEY, query INTEGER NOT NULL, moment INTEGER NOT NULL) STRICT;"
      "CREATE TABLE IF NOT EXISTS picks (num INTEGER PRIMARY KEY, query INTEGER NOT NULL, run INTEGER NOT NULL, doc INTEGER NOT NULL,"
      " second INTEGER NOT NULL) STRICT;");
  for (int i = 0; i < 4; i++)
    if (sqlite3_prepare_v2(store, texts[i], -1, &inserts[i], NULL)) exit(5);
  if (sqlite3_prepare_v2(store, "SELECT arrival, body FROM docs ORDER BY num", -1, &rows, NULL)) exit(5);
  while (sqlite3_step(rows) == SQLITE_ROW) {
    const char *body = sqlite3_column_blob(rows, 1);
    add_mail(sqlite3_column_int64(rows, 0), body ? body : "", sqlite3_column_bytes(rows, 1));
  }
  sqlite3_finalize(rows);
}

static void close_store(void) {
  for (int i = 0; i < 4; i++) sqlite3_finalize(inserts[i]);
  if (store && sqlite3_close(store)) exit(5);
}
#define PUT_ROW(table, text, len, ...) \
  put_row(table, sizeof((int64_t[]){__VA_ARGS__}) / sizeof(int64_t), (int64_t[]){__VA_ARGS__}, text, len)
#else
static void sql(const char *text) { (void)text; }
#define PUT_ROW(table, text, len, ...) (void)(len)
#endif

static void new_mail(const char *text, size_t size) {
  add_mail(now, text, size);
  PUT_ROW(DOC, docs[doc_count - 1].text, size, (int64_t)doc_count, now);
}

static char *text;
static size_t text_room, text_len;

static void append(const char *line, size_t len) {
  while (text_room < text_len + len) text = grow(text, &text_room, 1);
  memcpy(text + text_len, line, len);
  text_len += len;
}

static char *line_of_block;
static size_t block_room;

/* Returns the length of the next line of a block, which begins at *from; nothing at its end. */
static ssize_t next_line(char **from) {
  ssize_t len = getline(&line_of_block, &block_room, stdin);
  *from = line_of_block;
  if (len <= 0 || *line_of_block != '.') return len > 0 ? len : 0;
  if (len == 2) return 0;
  ++*from;
  return len - 1;
}

static void read_mail(void) {
  char *from;
  ssize_t len;
  text_len = 0;
  while ((len = next_line(&from))) append(from, len);
  sql("BEGIN");
  new_mail(text, text_len);
  sql("COMMIT");
  printf("ok 0 doc %zu\n", doc_count);
}

static void end_message(int is_open) {
  if (is_open && text_len && text[text_len - 1] == '\n' && (text_len == 1 || text[text_len - 2] == '\n')) text_len--;
  if (is_open) new_mail(text, text_len);
  text_len = 0;
}

static void read_mbox(void) {
  char *from;
  ssize_t len;
  int is_open = 0, after_empty = 1;
  size_t before = doc_count;
  text_len = 0;
  sql("BEGIN");
  while ((len = next_line(&from))) {
    if (after_empty && is(from, "From ")) {
      end_message(is_open);
      is_open = 1;
    } else if (is_open) {
      char *quoted = from;
      while (*quoted == '>') quoted++;
      int is_quoted = quoted > from && is(quoted, "From ");
      append(from + is_quoted, len - is_quoted);
    }
    after_empty = len == 1;
  }
  end_message(is_open);
  sql("COMMIT");
  printf("ok 0 docs %zu %zu\n", doc_count - before, before + 1);
}

/* A standing query: the documents of one list, or those that nobody replied to for `span` seconds. */
static struct Query {
  char name[32], key[256];
  Table *table;
  int64_t span;
  size_t done, runs;
  struct { uint32_t doc; int64_t first; } *box;
  size_t box_len, box_room;
} *queries;
static size_t query_count, query_room, runs, picks;

static void deliver(struct Query *query, uint32_t doc, int64_t first) {
  if (query->box_len == query->box_room) query->box = grow(query->box, &query->box_room, sizeof *query->box);
  query->box[query->box_len].doc = doc;
  query->box[query->box_len++].first = first;
}

static void define(char *name) {
  if (query_count == query_room) queries = grow(queries, &query_room, sizeof *queries);
  struct Query *query = memset(&queries[query_count++], 0, sizeof *queries);
  char *kind = strchr(name, ' ') + 1, *rest = strchr(kind, ' ') + 1;
  snprintf(query->name, sizeof query->name, "%.*s", (int)(kind - 1 - name), name);
  query->table = is(kind, "word") ? &words : is(kind, "sender") ? &senders : NULL;
  if (query->table) snprintf(query->key, sizeof query->key, "%s", rest);
  else query->span = atoll(rest);
  sql("BEGIN");
  PUT_ROW(QUERY, kind, strlen(kind), (int64_t)query_count, now);
  sql("COMMIT");
  printf("ok 0 query %s\n", query->name);
}

static void run(struct Query *query) {
  size_t from = query->box_len;
  List *list = query->table ? find(query->table, query->key, strlen(query->key)) : NULL;
  if (list) {
    for (; query->done < list->len && docs[list->docs[query->done] - 1].arrival < now; query->done++)
      deliver(query, list->docs[query->done], docs[list->docs[query->done] - 1].arrival);
  } else {
    for (; query->done < doc_count && docs[query->done].arrival + query->span < now; query->done++) {
      struct Doc *doc = &docs[query->done];
      List *answers = doc->id ? find(&replies, doc->id, doc->id_len) : NULL;
      int64_t first = doc->arrival + query->span;
      if (!answers || !answers->len || docs[answers->docs[0] - 1].arrival > first) deliver(query, query->done + 1, first);
    }
  }
  runs++;
  sql("BEGIN");
  PUT_ROW(RUN, NULL, 0, (int64_t)runs, query - queries + 1, now);
  for (size_t i = from; i < query->box_len; i++)
    PUT_ROW(PICK, NULL, 0, (int64_t)(picks + i - from + 1), query - queries + 1, (int64_t)runs, query->box[i].doc, query->box[i].first);
  sql("COMMIT");
  picks += query->box_len - from;
  printf("ok %zu run %zu before %lld\n", query->box_len - from, ++query->runs, (long long)now);
  for (; from < query->box_len; from++) printf("doc %u first %lld\n", query->box[from].doc, (long long)query->box[from].first);
}

static struct Query *query_named(const char *name) {
  /* The queries are run in the order of their definition, so the one after the last is mostly right. */
  static size_t last;
  for (size_t i = 0; i < query_count; i++)
    if (!strcmp(queries[(last + i) % query_count].name, name)) return &queries[last = (last + i) % query_count];
  exit(2);
}

int main(int count, char **args) {
  static char in[1 << 16], out[1 << 16];
  char *line = NULL;
  size_t room = 0;
  ssize_t len;
  int together = getenv("TOGETHER") != NULL;
  setvbuf(stdin, in, _IOFBF, sizeof in);
  setvbuf(stdout, out, _IOFBF, sizeof out);
#ifdef SQLITE
  if (count > 1) open_store(args[1]);
#else
  (void)count, (void)args;
#endif
  while ((len = getline(&line, &room, stdin)) > 0) {
    if (line[len - 1] == '\n') line[--len] = 0;
    if (is(line, "at ")) {
      now = atoll(line + 3);
      printf("ok 0 at %lld\n", (long long)now);
    } else if (is(line, "mail")) {
      read_mail();
    } else if (is(line, "mbox")) {
      read_mbox();
    } else if (is(line, "as ")) {
      printf("ok 0 as %s\n", line + 3);
    } else if (is(line, "note ")) {
      printf("ok 0 note\n");
    } else if (is(line, "query ")) {
      define(line + 6);
    } else if (is(line, "run ")) {
      run(query_named(line + 4));
    } else {
      printf("no 1\n");
      fflush(stdout);
    }
    if (!together) fflush(stdout);
  }
#ifdef SQLITE
  close_store();
#endif
  return 0;
}
